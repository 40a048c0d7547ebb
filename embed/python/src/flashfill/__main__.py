"""The command ``fillcsv`` over the engine's library: ``python -m flashfill``, with the program's words and statuses.

The engine reads no file, so each word that names one is looked up here and its bytes are handed in. Whole files are held in
memory, a sheet for ``--rule`` too, which the program reads row by row.
"""
from __future__ import annotations

import os
import pathlib
import sys
from typing import BinaryIO, Dict, List, Optional, Sequence

from . import engine
from .rule import Rule
from .told import asked_in


def named_by(words: Sequence[str]) -> List[str]:
    """Returns what could be a file's name in words: each word, and what follows each ``=`` in it.

    Examples
    --------
    >>> named_by(["a.csv", "--table=months=m.csv"])
    ['a.csv', '--table=months=m.csv', 'months=m.csv', 'm.csv']
    """
    parts = (word.split("=") for word in words)
    return ["=".join(it[at:]) for it in parts for at in range(len(it))]


def value_of(words: Sequence[str], *names: str) -> Optional[str]:
    """Returns what the option of these names is given; none if it is not there.

    Examples
    --------
    >>> value_of(["--save", "a"], "--save-rule", "--save"), value_of(["--save-rule=b"], "--save-rule"), value_of(["--saved"], "--save")
    ('a', 'b', None)
    """
    for word, after in zip(words, [*words[1:], None]):
        if word in names:
            return after
        name, joined, value = word.partition("=")
        if joined and name in names:
            return value
    return None


def files_of(words: Sequence[str]) -> Dict[str, bytes]:
    """Returns the files that words name, and those that a rule among them names, as far as they can be read."""
    files: Dict[str, bytes] = {}
    _read(named_by(words), files)
    rule = value_of(words, "--rule")
    if rule in files:
        try:
            _read(Rule(files[rule]).files, files)
        except engine.RefusedFile:  # the engine says why
            pass
    return files


def _read(names: Sequence[str], files: Dict[str, bytes]) -> None:
    for name in names:
        try:
            if name not in files and name != "-":
                files[name] = pathlib.Path(name).read_bytes()
        except (OSError, ValueError):  # the engine says that the file cannot be read if it wants it
            continue


def answer_to(words: Sequence[str]) -> engine.Answer:
    """Returns the engine's answer to words, over the files that they name and standard input if it is wanted."""
    files = files_of(words)
    if "--ask" in words and sys.stdin.isatty():
        return _replied(words, files)
    if "-" in words or "--ask" in words or value_of(words, "--rule") is not None:
        files["-"] = sys.stdin.buffer.read()
    return engine.run("fillcsv", [os.fsencode(it) for it in words], files)


def _replied(words: Sequence[str], files: Dict[str, bytes]) -> engine.Answer:
    """The answer to words with ``--ask`` at a terminal. The engine takes all replies at once, so it is asked anew after each."""
    replies: List[bytes] = []
    shown = 0
    while True:
        answer = engine.run("fillcsv", [os.fsencode(it) for it in words], {**files, "-": b"".join(replies)})
        question = asked_in(answer.err, len(replies))
        reply = b""
        if question is not None:
            _write(sys.stderr.buffer, question[shown:])
            shown = len(question)
            reply = sys.stdin.buffer.readline()
        if not reply:
            return answer._replace(err=answer.err[shown:])
        replies.append(reply if reply.endswith(b"\n") else reply + b"\n")


def _write(stream: BinaryIO, text: bytes) -> None:
    stream.write(text)
    stream.flush()


def save(path: str, text: bytes) -> None:
    """Writes a file. One that is there stays whole until the new one is, which is written beside it and takes its place.

    Examples
    --------
    >>> import tempfile
    >>> with tempfile.TemporaryDirectory() as folder:
    ...     save(f"{folder}/a", b"old")
    ...     save(f"{folder}/a", b"new")
    ...     pathlib.Path(folder, "a").read_bytes(), os.listdir(folder)
    (b'new', ['a'])
    """
    place = pathlib.Path(os.path.realpath(path))  # where the path is a link, the file that it leads to
    if place.exists() and not place.is_file():
        place.write_bytes(text)  # a device or a pipe keeps nothing
        return
    mode = None
    if place.exists():
        with place.open("r+b"):  # one that may not be written is not replaced
            mode = place.stat().st_mode
    beside = place.parent / f".fillcsv-saving-{os.getpid()}"
    with beside.open("xb") as file:
        try:
            file.write(text)
            file.flush()
            if mode is not None:
                beside.chmod(mode)
            beside.replace(place)
        except BaseException:
            beside.unlink()
            raise


def main(words: Optional[Sequence[str]] = None) -> int:
    """Runs the command with these words, else those of the command line, and returns its status."""
    words = sys.argv[1:] if words is None else words
    try:
        answer = answer_to(words)
    except KeyboardInterrupt:
        return 130
    except MemoryError:
        answer = engine.Answer(6, b"", b"fillcsv: out of memory\n", b"")
    try:
        _write(sys.stdout.buffer, answer.out)
    except OSError:
        sys.stdout = None  # type: ignore[assignment]  # nothing more is written there at the end
        _write(sys.stderr.buffer, b"fillcsv: output cannot be written\n")
        return 4
    path = value_of(words, "--save-rule", "--save")
    if answer.saved and path is not None:
        try:
            save(path, answer.saved)
        except OSError:
            _write(sys.stderr.buffer, b"fillcsv: %b: cannot be written\n" % os.fsencode(path))
            return 4
    status = 2 if answer.status == 7 else answer.status
    _write(sys.stderr.buffer, answer.err or (b"fillcsv: a word is not UTF-8\n" if answer.status == 7 else b""))
    return status


if __name__ == "__main__":
    sys.exit(main())
