"""The other sheets of a document as tables to look up in."""
import re

from .learning import MOST_TABLE_ROWS, Tables
from .region import Region

_known = []  # the last tables, since telling their keys takes a while


def records_of_sheet(doc, sheet, tick):
    """The texts of all that a sheet holds, from its first cell; None where it is one column, in which nothing can be looked up."""
    used = sheet.createCursor()
    used.gotoEndOfUsedArea(False)
    end = used.getRangeAddress()
    if end.EndColumn == 0:
        return None
    region = Region.of_range(doc, sheet, sheet.getCellRangeByPosition(0, 0, end.EndColumn, end.EndRow).getRangeAddress())
    return [list(it) for it in zip(*(region.texts(it, tick) for it in range(region.width)))]


def named_tables(doc):
    """The sheets by the names that their tables have in the words of a run: that of the sheet where it is a word."""
    sheets = [doc.Sheets.getByIndex(it) for it in range(doc.Sheets.getCount())]
    is_word = re.compile(r"[A-Za-z_]\w*$", re.ASCII).match
    return {it.getName() if is_word(it.getName()) else f"table{at}": it for at, it in enumerate(sheets, 1)}


def tables_of(doc, sheet, tick):
    """The other sheets of at most 2,000 rows in which something can be looked up; None where there is none. A header stays, as
    one row more, which no key finds."""
    tables = {}
    for name, other in named_tables(doc).items():
        used = other.createCursor()
        used.gotoEndOfUsedArea(False)
        if other.getName() == sheet.getName() or used.getRangeAddress().EndRow >= MOST_TABLE_ROWS:
            continue
        records = records_of_sheet(doc, other, tick)
        if records and any(map(any, records)):
            tables[name] = records
    if not tables:
        return None
    if not _known or _known[0].records != tables:
        _known[:] = [Tables(tables)]
    return _known[0] if _known[0].words else None
