"""The engine: `flashfill` and `fillcsv` as one call, with the words and the files of a run in memory."""
import ctypes
import pathlib
import platform
import threading

ENGINES = pathlib.Path(__file__).resolve().parents[2] / "engines"
LIBRARIES = {"Linux": "libflashfill.so", "Windows": "flashfill.dll"}
MACHINES = {"amd64": "x86_64", "arm64": "aarch64"}
NO_MEMORY = 6

_lock = threading.Lock()
_loaded = []


class NoEngine(Exception):
    """The extension has no engine for this system. The text is the system's name."""


class Stopped(Exception):
    """A program gave no answer. The text is its own line."""


class Answer:
    """What a program answers: its status, its output, its lines of errors, and the file that it saved."""

    def __init__(self, status, out, err, saved):
        self.status, self.out, self.err, self.saved = status, out, err, saved


def system():
    """The name of this system, as the folders of `engines` are called."""
    machine = platform.machine().lower()
    return f"{platform.system().lower()}-{MACHINES.get(machine, machine)}"


def _library():
    with _lock:
        if not _loaded:
            path = ENGINES / system() / LIBRARIES.get(platform.system(), "")
            if not path.is_file():
                raise NoEngine(system())
            try:
                library = ctypes.CDLL(str(path))
            except OSError as why:
                raise NoEngine(f"{system()}: {why}") from why
            library.fill_engine.restype = ctypes.c_size_t
            library.fill_engine.argtypes = [ctypes.c_char_p, ctypes.c_size_t, ctypes.c_char_p, ctypes.c_size_t]
            _loaded.append(library)
        return _loaded[0]


def _number(number):
    return number.to_bytes(8, "little")


def _piece(text):
    return _number(len(text)) + text


def _bytes(text):
    return text if isinstance(text, bytes) else text.encode("utf-8", "replace")


def run(program, words, files):
    """Runs a program with these words over files in memory, by their names; `-` is standard input."""
    parts = [_piece(_bytes(program)), _number(len(words)), *(_piece(_bytes(it)) for it in words), _number(len(files))]
    for name, text in files.items():
        parts += [_piece(_bytes(name)), _piece(_bytes(text))]
    request = b"".join(parts)
    library, size, needed = _library(), 0, 2 * len(request) + 65536
    while needed > size:
        size = needed
        room = ctypes.create_string_buffer(size)
        needed = library.fill_engine(request, len(request), room, size)
    answer, texts, at = ctypes.string_at(room, needed), [], 1
    for _ in range(3):
        end = at + 8 + int.from_bytes(answer[at:at + 8], "little")
        texts.append(answer[at + 8:end])
        at = end
    return Answer(answer[0], *texts)


def checked(program, words, files):
    """The same, where all of the output was written."""
    answer = run(program, words, files)
    if answer.status > 1:
        line = "out of memory" if answer.status == NO_MEMORY else answer.err.decode("utf-8", "replace").strip() or "no request"
        raise Stopped(line)
    return answer
