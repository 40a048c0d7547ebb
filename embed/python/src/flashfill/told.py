"""What the program tells on standard error, as data.

This is the one place where lines that are made for people are parsed. It goes once the engine hands out the same as data.
Until then: only ten given texts that are not learned from and ten cells in doubt are told in one run, and what a line
does not hold is not known here. A line that is not understood is kept in `Told.rest`, so that nothing is lost in silence.
"""
from __future__ import annotations

import re
from typing import Dict, List, NamedTuple, Optional, Tuple

_ANSWER = r'("(?:[^"\\]|\\.)*"|none)'
_DOUBT = re.compile(rf"row (\d+): {_ANSWER}, or {_ANSWER}(?: by: (.*))?")
_REFUSED = re.compile(r"row (\d+)(?: \(.*\))?(?:: not learned from| was not used)(?:: (.*))?")
_NEXT = re.compile(r"look at row (\d+) next: .*")
_IN_DOUBT = re.compile(r"look at row [\d, ]+")
_COUNTS = re.compile(r".*\b\d+ given, .*")
_ROWS = re.compile(r"\b(?:row|rows) (\d+)(?: and (\d+))?")
_ESCAPES = {"n": "\n", "r": "\r", "t": "\t"}
_PROMPT = "\n> "


class Doubt(NamedTuple):
    """Both answers for a cell in doubt, none where there is no answer, and the other answer's rule in words."""

    answer: Optional[str]
    other: Optional[str]
    other_rule: Optional[str]


class Told(NamedTuple):
    """The lines of one run. Rows are numbered as the program does it: the header is row 1.

    `next` is the row to look at next if the program names one, `rule` has a line for each kind of rows.
    """

    rule: Tuple[str, ...]
    doubts: Dict[int, Doubt]
    refused: Dict[int, str]
    next: Optional[int]
    rest: Tuple[str, ...]


def told_by(err: bytes) -> Told:
    r"""Returns what the lines of a run say.

    Examples
    --------
    >>> told = told_by(b'fillcsv: rule: Name\nfillcsv: row 5: "a\\nb", or none\nfillcsv: look at row 5 next: "a", or none\n')
    >>> told.rule, told.doubts[5].answer, told.doubts[5].other, told.next
    (('Name',), 'a\nb', None, 5)
    """
    rule: List[str] = []
    rest: List[str] = []
    doubts: Dict[int, Doubt] = {}
    refused: Dict[int, str] = {}
    look: Optional[int] = None
    for line in err.decode(errors="replace").split("\n"):
        line = line[len("fillcsv: ") :] if line.startswith("fillcsv: ") else line
        if line.startswith("rule: "):
            rule.append(line[len("rule: ") :])
            continue
        doubt, refusal, asked = _DOUBT.fullmatch(line), _REFUSED.fullmatch(line), _NEXT.fullmatch(line)
        if doubt:
            doubts[int(doubt[1])] = Doubt(_answer(doubt[2]), _answer(doubt[3]), doubt[4])
        elif refusal:
            refused[int(refusal[1])] = refusal[2] or "no reason is told"
        elif asked:
            look = int(asked[1])
        elif line and not _COUNTS.fullmatch(line) and not _IN_DOUBT.fullmatch(line):
            rest.append(line)
    return Told(tuple(rule), doubts, refused, look, tuple(rest))


def rows_in(line: str) -> Tuple[int, ...]:
    """Returns the rows that a line of an error names.

    Examples
    --------
    >>> rows_in("fillcsv: months: rows 3 and 4 agree in the key")
    (3, 4)
    """
    return tuple(int(it) for found in _ROWS.finditer(line) for it in found.groups() if it)


def asked_in(err: bytes, replies: int) -> Optional[bytes]:
    """Returns what `--ask` wrote up to the question after so many replies; none if it asked no more."""
    parts = err.split(_PROMPT.encode())
    return _PROMPT.encode().join([*parts[: replies + 1], b""]) if len(parts) > replies + 1 else None


def _answer(told: str) -> Optional[str]:
    """The text of an answer as it is told: in quotes, with escapes."""
    if told == "none":
        return None
    return re.sub(r"\\(.)", lambda it: _ESCAPES.get(it[1], it[1]), told[1:-1], flags=re.S)
