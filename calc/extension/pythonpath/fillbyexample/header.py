"""Whether the first record of a region is a header."""
from .columns import nearest
from .learning import MOST_EXAMPLES, Question, fill
from .told import has_letters

BOLD = 120  # com.sun.star.awt.FontWeight: above normal
MOST_ROWS, MOST_COLUMNS = 200, 16  # a part of a large sheet tells it too


def has_header(region, given, wait, tick):
    """As a filter says, as the cells tell by their kinds and their weight, and else as the engine learns better."""
    if _has_filter(region):
        return True
    beside = sorted(nearest(region)[:MOST_COLUMNS])
    firsts = [region.texts(it, tick)[0] for it in beside]
    if region.height < 2 or not all(it.strip() for it in firsts):
        return False
    own = region.texts(region.to)[0]
    if len({*firsts, own}) < len(firsts) + 1 or any(0 in region.has_values(it) for it in beside):
        return False
    rows = range(1, min(region.height, MOST_ROWS))
    if any(sum(it in region.has_values(column) for it in rows) * 2 > len(rows) for column in beside):
        return True
    weights = [[region.cells(it).getCellByPosition(0, row).CharWeight > BOLD for it in beside] for row in (0, 1)]
    if all(weights[0]) and not any(weights[1]):
        return True
    return _learns_better(region, beside[:8], own, given, wait)


def _has_filter(region):
    """Whether the first row has the buttons of a filter."""
    sheet = region.sheet_number
    ranges = [region.doc.DatabaseRanges.getByName(it) for it in region.doc.DatabaseRanges.getElementNames()]
    unnamed = region.doc.getPropertyValue("UnnamedDatabaseRanges")
    ranges += [unnamed.getByTable(sheet)] if unnamed.hasByTable(sheet) else []
    areas = [it.getDataArea() for it in ranges if it.AutoFilter]
    return any((it.Sheet, it.StartRow) == (sheet, region.top) and it.StartColumn <= region.right and region.left <= it.EndColumn for it in areas)


def _learns_better(region, read, own, given, wait):
    """Whether the first record fits its rows badly: its cell of the column, as an example, is refused or makes one more kind
    of rows, of letters that stand in no cell beside it."""
    if not own:
        return False
    given = {row: it for row, it in sorted(given.items()) if row > 0}
    examples = dict(list(given.items())[:MOST_EXAMPLES])
    kept = sorted({*examples, *range(1, min(region.height, MOST_ROWS))})
    rows = [[region.texts(it)[row] for it in read] for row in [0, *kept]]
    given = {at: examples[row] for at, row in enumerate(kept) if row in examples}
    if not given:  # the one filled cell is a name where it is the same text in all rows, or partly made of letters of its own
        alone = fill(Question(None, rows, {0: own}), wait)
        return len(set(alone.texts)) == 1 or has_letters(alone.rule[0])
    names = [*rows[0], own]
    as_header = fill(Question(names, rows[1:], given), wait)
    as_row = fill(Question(None, rows, {0: own, **{row + 1: it for row, it in given.items()}}), wait)
    if set(as_row.refusals) - {it + 1 for it in as_header.refusals}:
        return True
    # its kind of rows comes first
    return len(as_row.rule) > len(as_header.rule) and has_letters(as_row.rule[0])
