"""Cells as texts and texts as cells, and sheets as the program reads and writes them.

The rule by which a cell is read as a text:

- a text is itself; None, NaN, NA, NaT and "" are empty, and so to fill;
- a number is as `str` shows it, and a whole one has no point: 7.0 is `7`, 0.5 is `0.5`;
- True and False are `True` and `False`;
- a date is as in ISO 8601, `2012-03-11`. A time has its time of day after a blank, `2012-03-11 09:30:00`, unless it is
  midnight in all cells of the column;
- anything else is as `str` shows it.

A function for a column, one of `formats`, takes the place of this rule. Answers are texts. They come back as numbers,
dates or truth values if all cells that the column holds already are such, and all answers can be read as such.
"""
from __future__ import annotations

import csv
import datetime
import io
import numbers
import re
from typing import Any, Callable, Iterable, Iterator, List, Optional, Sequence, Tuple, TypeVar

Shown = Callable[[Any], str]
Result = TypeVar("Result")
MIDNIGHT = datetime.time()
_WHOLE = re.compile(r"[+-]?\d+")
_NUMBER = re.compile(r"[+-]?\d+(?:\.\d+)?(?:[eE][+-]?\d+)?")
_TIME = re.compile(r"\d{4}-\d\d-\d\d(?: \d\d:\d\d:\d\d(?:\.\d+)?(?:[+-]\d\d:\d\d)?)?")
_FIELD = re.compile(r'(?:"((?:[^"]|"")*)"|([^,"\n]*))([,\n])')


def is_missing(cell: Any) -> bool:
    """Returns whether a cell holds nothing: None, NaN, NA or NaT."""
    if cell is None or isinstance(cell, str):
        return cell is None
    try:
        return bool(cell != cell)
    except TypeError:  # pandas.NA is neither the same as itself nor another one
        return True
    except ValueError:  # an array
        return False


def is_empty(cell: Any) -> bool:
    """Returns whether a cell is to fill.

    Examples
    --------
    >>> [is_empty(it) for it in ("", None, float("nan"), 0, " ")]
    [True, True, True, False, False]
    """
    return is_missing(cell) or (isinstance(cell, str) and cell == "")


def is_unicode(text: str) -> bool:
    """Returns whether a text can be written as UTF-8, which no half of a surrogate pair can."""
    return text.encode(errors="ignore").decode() == text


def texts_of(cells: Sequence[Any], shown: Optional[Shown] = None) -> List[str]:
    """Returns the texts of a column's cells, by a function of one's own or by the rule of this module.

    Examples
    --------
    >>> import datetime
    >>> texts_of(["a", 7.0, 0.5, None, datetime.date(2012, 3, 11)])
    ['a', '7', '0.5', '', '2012-03-11']
    >>> texts_of([datetime.datetime(2012, 3, 11), datetime.datetime(2012, 3, 11, 9, 30)])
    ['2012-03-11 00:00:00', '2012-03-11 09:30:00']
    """
    if shown is None:
        times = (it for it in cells if isinstance(it, datetime.datetime) and not is_missing(it))
        shown = _shown if any(it.time() != MIDNIGHT for it in times) else _shown_by_day
    return [it if type(it) is str else "" if is_missing(it) else shown(it) for it in cells]


def _shown(cell: Any) -> str:
    if isinstance(cell, float) and cell.is_integer() and abs(cell) < 1e15:
        return str(int(cell))
    return str(cell)


def _shown_by_day(cell: Any) -> str:
    return cell.date().isoformat() if isinstance(cell, datetime.datetime) else _shown(cell)


def cells_of(texts: Sequence[str], given: Iterable[Any]) -> Optional[List[Any]]:
    """Returns texts as cells of the kind that all given cells have, and "" as None.

    It returns none if there is no such kind, or if a text is no such cell.

    Examples
    --------
    >>> cells_of(["7", "12"], [3]), cells_of(["7.5"], [3, 0.5]), cells_of(["7", "x"], [3])
    ([7, 12], [7.5], None)
    """
    read = _reader_of(set(map(type, given)))
    try:
        return [None if it == "" else read(it) for it in texts] if read else None
    except ValueError:
        return None


def _reader_of(kinds: "set[type]") -> Optional[Callable[[str], Any]]:
    def are(wanted: Any) -> bool:
        return bool(kinds) and all(issubclass(it, wanted) for it in kinds)

    if are(bool):
        return _truth
    if are(numbers.Integral):
        return _whole
    if are(numbers.Real):
        return _number
    if are(datetime.datetime):
        return _time
    if are(datetime.date):
        return datetime.date.fromisoformat
    return None


def _truth(text: str) -> bool:
    if text not in ("True", "False"):
        raise ValueError
    return text == "True"


def _whole(text: str) -> int:
    if not _WHOLE.fullmatch(text):
        raise ValueError
    return int(text)


def _number(text: str) -> float:
    if not _NUMBER.fullmatch(text):
        raise ValueError
    number = float(text)
    if _WHOLE.fullmatch(text) and int(number) != int(text):  # digits would be lost
        raise ValueError
    return number


def _time(text: str) -> datetime.datetime:
    if not _TIME.fullmatch(text):
        raise ValueError
    return datetime.datetime.fromisoformat(text)


def sheet_of(header: Sequence[str], rows: Sequence[Sequence[str]]) -> bytes:
    """Returns a header and rows as a CSV file. The header is in quotes, so a byte order mark in it is a part of a name."""
    text = io.StringIO()
    try:
        csv.writer(text).writerows(rows)
    except csv.Error:  # a NUL in Python 3.10
        return "".join(f"{_quoted(it)}\n" for it in (header, *rows)).encode()
    return f"{_quoted(header)}\n{text.getvalue()}".encode()


def sheet_of_columns(header: Sequence[str], columns: Sequence[Sequence[str]]) -> bytes:
    """Returns the same of a header and columns; fast where no text needs quotes.

    Examples
    --------
    >>> sheet_of_columns(["a", "b"], [("1", "2"), ("", "x")])
    b'"a","b"\\n1,\\n2,x\\n'
    """
    body, count = "\n".join(map(",".join, zip(*columns))), len(columns[0])
    parts = body.count("\n") + 1, body.count(",")
    is_plain = not any(it in body for it in '"\r\0') and parts == (count, count * (len(columns) - 1))
    if is_plain and "\n\n" not in f"\n{body}\n":  # a record must be no empty line
        return f"{_quoted(header)}\n{body}\n".encode()
    return sheet_of(header, list(zip(*columns)))


def _quoted(record: Sequence[str]) -> str:
    return ",".join('"' + it.replace('"', '""') + '"' for it in record)


def records_of(sheet: bytes) -> List[List[str]]:
    r"""Returns the records of a CSV file that the program wrote.

    Examples
    --------
    >>> records_of(b'a,"b ""c"\n"d\n",\n')
    [['a', 'b "c'], ['d\n', '']]
    """
    return _read(sheet, list)


def columns_of(sheet: bytes, at: int) -> Tuple[List[str], List[str]]:
    """Returns the fields at a place, and the last ones, of all records after the first.

    Examples
    --------
    >>> columns_of(b"Name,Last,Last state\\nAda,Byron,given\\nMax,Planck,sure\\n", 1)
    (['Byron', 'Planck'], ['given', 'sure'])
    """

    def picked(records: Iterator[List[str]]) -> Tuple[List[str], List[str]]:
        next(records)
        fields: List[str] = []
        last: List[str] = []
        for record in records:
            fields.append(record[at])
            last.append(record[-1])
        return fields, last

    return _read(sheet, picked)


def last_of(sheet: bytes) -> List[str]:
    """Returns the last fields of all records after the first, which have one width.

    Examples
    --------
    >>> last_of(b"Name,Last\\nAda,Byron\\nMax,Planck\\n")
    ['Byron', 'Planck']
    """
    text = sheet.decode()
    if '"' in text:
        return columns_of(sheet, -1)[1]
    width = text[: text.find("\n")].count(",") + 1  # all records have that many fields, and no field has a comma
    return text[:-1].replace("\n", ",").split(",")[2 * width - 1 :: width]


def _read(sheet: bytes, use: Callable[[Iterator[List[str]]], Result]) -> Result:
    text = sheet.decode()
    try:
        return use(csv.reader(io.StringIO(text, newline="")))
    except csv.Error:  # a field of more than 131072 characters, or a NUL before Python 3.11
        return use(_split(text))


def _split(text: str) -> Iterator[List[str]]:
    record: List[str] = []
    for quoted, plain, end in _FIELD.findall(text):
        record.append(quoted.replace('""', '"') or plain)
        if end == "\n":
            yield record
            record = []
