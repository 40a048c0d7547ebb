"""The call into the engine: a program with its words and files goes in, and its answer comes out.

The module needs the standard library alone, so a single copy of it beside another program works too. The engine is the
shared library that ``embed/build`` makes of the proved crate ``fill_engine``. It is looked for

1. where the environment variable ``FLASHFILL_LIBRARY`` says,
2. beside this file, which is where the wheel has it,
3. in ``embed/out`` of a clone.

A call reads no file and keeps nothing, and releases the interpreter's lock. Any number of threads may call at once. The
engine needs up to `STACK` bytes of stack, which a thread of the caller may not have left. So each call runs in a thread
of its own with that much, and the caller waits for it. Ctrl+C ends the waiting; the engine's thread then ends by itself,
and what it found is thrown away.

Only tested: all of this module. The engine behind the call is proved.
"""
from __future__ import annotations

import _thread
import ctypes
import functools
import os
import pathlib
import threading
from typing import Any, Dict, Mapping, NamedTuple, Sequence, Tuple, Type, Union

Bytes = Union[str, bytes]

STACK = 8 << 20
"""The stack of a call, in bytes."""


class FlashFillError(Exception):
    """A program gave no answer.

    Attributes
    ----------
    status : int
        The program's exit status.
    rows : tuple
        The rows that the program's line names: labels of the frame that was handed in, else numbers of rows.

    The text of the exception is the program's own line.
    """

    def __init__(self, status: int, line: str, rows: Tuple[Any, ...] = ()) -> None:
        super().__init__(line)
        self.status, self.rows = status, rows

    def __reduce__(self) -> Tuple[Any, ...]:
        return type(self), (self.status, str(self), self.rows)


class WrongWords(FlashFillError, ValueError):
    """The words are wrong: there is no such option, or a word is not UTF-8."""


class MissingFile(FlashFillError, LookupError):
    """A file that the words, the session or the rule names was not handed in."""


class RefusedFile(FlashFillError, ValueError):
    """A file is refused: it is no sheet, no session, no table or no rule, or it has no such column or row."""


class NoMemory(FlashFillError, MemoryError):
    """There was not enough memory."""


ERRORS: Dict[int, Type[FlashFillError]] = {2: WrongWords, 3: MissingFile, 5: RefusedFile, 6: NoMemory, 7: WrongWords}
UNTOLD = {6: "out of memory", 7: "no request: the program has another name, or a word is not UTF-8"}


class Answer(NamedTuple):
    """What a program answers: its status, what it wrote to its output and to its errors, and the file that it saved."""

    status: int
    out: bytes
    err: bytes
    saved: bytes

    def checked(self) -> Answer:
        """Returns the answer itself.

        Raises
        ------
        FlashFillError
            If the status says that not all of the output was written.
        """
        if self.status > 1:
            line = self.err.decode().rstrip("\n") or UNTOLD.get(self.status, f"status {self.status}")
            raise ERRORS.get(self.status, FlashFillError)(self.status, line)
        return self


@functools.lru_cache(maxsize=None)
def library() -> ctypes.CDLL:
    """Returns the engine's library, which is loaded by the first call.

    Raises
    ------
    ImportError
        If there is no library.
    """
    here = pathlib.Path(__file__).resolve().parent
    named = os.environ.get("FLASHFILL_LIBRARY")
    places = [named] if named else [f"{here}/libflashfill.so", f"{here.parent.parent.parent}/out/libflashfill.so"]
    for place in places:
        if os.path.exists(place):
            loaded = ctypes.CDLL(os.path.abspath(place))
            loaded.fill_engine.restype = ctypes.c_size_t
            loaded.fill_engine.argtypes = [ctypes.c_char_p, ctypes.c_size_t, ctypes.c_char_p, ctypes.c_size_t]
            return loaded
    raise ImportError(f"no engine: {' and '.join(places)} not there; embed/build makes it, FLASHFILL_LIBRARY can name it")


def _number(number: int) -> bytes:
    return number.to_bytes(8, "little")


def _piece(text: Bytes) -> bytes:
    text = text.encode() if isinstance(text, str) else bytes(text)
    return _number(len(text)) + text


def request_of(program: str, words: Sequence[Bytes], files: Mapping[str, Bytes]) -> bytes:
    """Returns the bytes of a request: the program, its words, and each file by its name."""
    parts = [_piece(program), _number(len(words)), *map(_piece, words), _number(len(files))]
    for name, text in files.items():
        parts += [_piece(name), _piece(text)]
    return b"".join(parts)


_starting = threading.Lock()


def _call(request: bytes, room: ctypes.Array[ctypes.c_char]) -> int:
    """The engine's call in a thread of its own. The size of a stack is a setting of the whole process, hence the lock."""
    fill_engine, done, sizes = library().fill_engine, threading.Lock(), []

    def call() -> None:
        try:
            sizes.append(fill_engine(request, len(request), room, len(room)))
        finally:
            done.release()

    done.acquire()
    with _starting:
        before = threading.stack_size(STACK)
        try:
            _thread.start_new_thread(call, ())
        finally:
            threading.stack_size(before)
    done.acquire()
    return int(sizes[0])


def answer_of(request: bytes) -> Answer:
    """Returns the engine's answer to the bytes of a request."""
    size, needed = 0, 2 * len(request) + 65536
    while needed > size:
        size = needed
        room = ctypes.create_string_buffer(size)
        needed = _call(request, room)
    answer, texts, at = memoryview(room)[:needed].cast("B"), [], 1
    for _ in range(3):
        end = at + 8 + int.from_bytes(answer[at : at + 8], "little")
        texts.append(bytes(answer[at + 8 : end]))
        at = end
    return Answer(answer[0], *texts)


def run(program: str, words: Sequence[Bytes], files: Mapping[str, Bytes]) -> Answer:
    """Runs a program over files in memory. It raises no error of its own.

    Parameters
    ----------
    program : str
        ``"flashfill"`` or ``"fillcsv"``.
    words : sequence of str
        The words after the program's name.
    files : mapping of str to bytes or str
        The files by the names that the words have for them; ``"-"`` is standard input.

    Examples
    --------
    >>> answer = run("fillcsv", ["-", "--to=Last", "--quiet"], {"-": "Name,Last\\nAda Byron,Byron\\nMax Planck,\\n"})
    >>> answer.status, answer.out.decode().splitlines()
    (0, ['Name,Last', 'Ada Byron,Byron', 'Max Planck,Planck'])
    """
    return answer_of(request_of(program, words, files))


def report(session: Bytes, files: Mapping[str, Bytes]) -> str:
    """Returns the report of a session file, as ``flashfill replay`` writes it.

    Parameters
    ----------
    session : str or bytes
        The session file. Edits that its examples refuse stand in the report and are no error.
    files : mapping of str to bytes or str
        The sheet and the tables, by the names that the session has for them.
    """
    name = free_name("session", files)
    return run("flashfill", ["replay", name], {**files, name: session}).checked().out.decode()


def free_name(name: str, files: Mapping[str, Any]) -> str:
    """Returns the name, with hyphens after it if a file is called so."""
    while name in files:
        name += "-"
    return name
