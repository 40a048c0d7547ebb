"""The marks of cells in doubt: a cell style, and notes with both answers."""
from .memory import text_sum
from .region import by_record
from .writing import runs

MARK_COLOR = 0xFFE9A8
NO_COLOR = -1
MOST_NOTES = 10


def mark(region, doubtful, words):
    """Gives cells the style of doubt, but for those with a colour of the person's own. The style of a cell in another style
    comes from that one, so that all else stays and `clear` finds the way back. A protected sheet takes no styles."""
    if not doubtful or region.sheet.isProtected():
        return
    formats = by_record(region.cells(region.to), region.top, lambda it: (it.CellStyle, it.CellBackColor))
    by_style = {}
    for record in doubtful:
        name, color = formats[record]
        if color == NO_COLOR:
            by_style.setdefault(name, []).append(record)
    for name, records in by_style.items():
        ranges = region.doc.createInstance("com.sun.star.sheet.SheetCellRanges")
        ranges.addRangeAddresses(tuple(region.address(*it) for it in runs(records)), False)
        ranges.CellStyle = _style(region.doc, words, name)


def _style(doc, words, parent):
    family = doc.StyleFamilies.getByName("CellStyles")
    name = words.STYLE if parent == "Default" else f"{words.STYLE}: {parent}"
    if not family.hasByName(name):
        style = doc.createInstance("com.sun.star.style.CellStyle")
        family.insertByName(name, style)
        style.ParentStyle = parent
        style.CellBackColor = MARK_COLOR
    return name


def clear(region, styles, known):
    """Takes all marks off the column, but for notes that a person has changed: `known` are the checksums of ours. `styles` are
    the names of the style of doubt in all languages."""
    family, cells = region.doc.StyleFamilies.getByName("CellStyles"), region.cells(region.to)
    ours = {name for name in family.getElementNames() if any(name == it or name.startswith(f"{it}: ") for it in styles)}
    if ours:
        for group in [it for it in cells.getUniqueCellFormatRanges() if it.CellStyle in ours]:
            group.CellStyle = family.getByName(group.CellStyle).ParentStyle or "Default"
    notes = region.sheet.getAnnotations()
    for at in reversed(range(notes.getCount() if known else 0)):
        note = notes.getByIndex(at)
        place = note.getPosition()
        is_inside = place.Column == region.column and region.top <= place.Row <= region.bottom
        if is_inside and text_sum(note.getString()) in known:
            notes.removeByIndex(at)


def note(region, texts):
    """Adds notes, by record, the first ten of them; a cell that has one keeps it. Returns the checksums of their texts."""
    notes, added = region.sheet.getAnnotations(), []
    for record, text in list(texts.items())[:MOST_NOTES]:
        cell = region.place(record)
        if not cell.getAnnotation().getString():
            notes.insertNew(cell.getCellAddress(), text)
            added.append(text_sum(cell.getAnnotation().getString()))
    return added
