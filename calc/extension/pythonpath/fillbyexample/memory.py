"""What was filled, remembered in the document: so that a second run, also after reloading, does not take guesses for examples.

A property of the document's own holds it, as text. For each filled column there are the choices of the person, and for each
filled cell its row and two checksums: of its text, and of it with the cells that were read beside it. A cell still is a guess
if one of these fits, so that a column may be sorted, moved, or get other rows, or a cell beside it may be corrected.
"""
import base64
import json
import struct
import zlib

PROPERTY = "FillByExample"
REMOVEABLE = 128  # com.sun.star.beans.PropertyAttribute
FORM = struct.Struct("<III")


class Column:
    """A column that was filled, by the name of its sheet and its number. `read` are the columns that were read, counted from
    it; `chosen` says that a person chose these. `header` is None where nobody said it."""

    def __init__(self, sheet, column, header=None, read=(), chosen=False, tables=False, cells=(), confirmed=(), notes=()):
        self.sheet, self.column, self.header, self.read, self.chosen, self.tables = sheet, column, header, list(read), chosen, tables
        self.confirmed, self.notes, self.was = set(confirmed), list(notes), (sheet, column)
        self.set_cells(cells)

    def set_cells(self, cells):
        """The filled cells: row, checksum of the text, checksum with what was read."""
        self.cells = list(cells)
        self.by_row = {row: text for row, text, _ in self.cells}
        self.by_content = {content for _, _, content in self.cells}

    def is_guess(self, row, text, beside):
        content = content_sum(text, beside)
        return content not in self.confirmed and (self.by_row.get(row) == text_sum(text) or content in self.by_content)

    def confirm(self, text, beside):
        """A person says by a button that this is right."""
        self.confirmed.add(content_sum(text, beside))

    def is_confirmed(self, text, beside):
        return content_sum(text, beside) in self.confirmed

    def packed(self):
        cells = b"".join(FORM.pack(*it) for it in self.cells)
        packed = base64.b64encode(zlib.compress(cells)).decode()
        return [self.sheet, self.column, self.header, self.read, self.chosen, self.tables, packed, sorted(self.confirmed), self.notes]

    @classmethod
    def unpacked(cls, it):
        cells = FORM.iter_unpack(zlib.decompress(base64.b64decode(it[6])))
        return cls(*it[:6], cells, *it[7:9])


def text_sum(text):
    return zlib.crc32(text.encode("utf-8", "replace"))


def content_sum(text, beside):
    return zlib.crc32("\0".join((text, *beside)).encode("utf-8", "replace"))


def read(doc):
    """What the document remembers, as text."""
    properties = doc.DocumentProperties.UserDefinedProperties
    return properties.getPropertyValue(PROPERTY) if properties.PropertySetInfo.hasPropertyByName(PROPERTY) else ""


def write(doc, text):
    properties = doc.DocumentProperties.UserDefinedProperties
    if properties.PropertySetInfo.hasPropertyByName(PROPERTY):
        properties.removeProperty(PROPERTY)
    if text:
        properties.addProperty(PROPERTY, REMOVEABLE, text)


def columns(doc):
    """The remembered columns; none where the property was written by something else."""
    try:
        return [Column.unpacked(it) for it in json.loads(read(doc) or "[]")]
    except (ValueError, LookupError, TypeError, struct.error, zlib.error):
        return []


def find(doc, region):
    """The memory of the region's column, None where it was never filled. A column that was moved is found by its cells."""
    name, known = region.sheet.getName(), columns(doc)
    for it in known:
        if (it.sheet, it.column) == (name, region.column):
            return it
    texts = region.texts(region.to)
    for it in known:
        if not reads_inside(it, region):
            continue
        held = [row for row, text in enumerate(texts) if text]
        fits = sum(content_sum(texts[row], beside(it, region, row)) in it.by_content for row in held)
        if held and fits * 2 >= len(held):
            it.sheet, it.column = name, region.column
            return it
    return None


def beside(column, region, row):
    """The texts that were read in a row."""
    return [region.texts(region.to + it)[row] for it in column.read]


def reads_inside(column, region):
    """Whether all columns that were read are in the region."""
    return all(0 <= region.to + it < region.width for it in column.read)


def keep(doc, column):
    """Puts a column in the place of what was remembered of it."""
    others = [it for it in columns(doc) if it.was not in (column.was, (column.sheet, column.column))]
    write(doc, json.dumps([it.packed() for it in [*others, column]], separators=(",", ":")))
