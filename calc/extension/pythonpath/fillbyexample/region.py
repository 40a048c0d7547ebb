"""What is read of a sheet: the range around a cell or the selected one, its texts as they are shown, and the places of the
column to fill that may be written."""
from com.sun.star.table import CellRangeAddress

VALUE, DATETIME, STRING, FORMULA = 1, 2, 4, 16  # com.sun.star.sheet.CellFlags
IS_VALUE, IS_ERROR = 1, 4  # com.sun.star.sheet.FormulaResult
MOST_ROWS_SELECTED = 1000000  # of more the whole column is selected


class Refused(Exception):
    """There is nothing to fill. The text is the name of the reason in the words, and what stands in it."""

    def __init__(self, name, *parts):
        super().__init__(name)
        self.name, self.parts = name, parts


class Region:
    """A range of a sheet, of which one column is to be filled. Records and columns count from 0 in the range."""

    def __init__(self, doc, sheet, cell, selected=None, needs_beside=True):
        """`selected` are the first and the last row of a selection in the column, else None."""
        self.doc, self.sheet, self.selected = doc, sheet, selected
        around = sheet.createCursorByRange(cell)
        around.collapseToCurrentRegion()
        at, place = around.getRangeAddress(), cell.getRangeAddress()
        self.column = place.StartColumn
        self.left, self.right = min(at.StartColumn, self.column), max(at.EndColumn, self.column)
        self.top, self.bottom = at.StartRow, at.EndRow
        self._open()
        # beside the columns that a sheet uses the region of a cell is another one's (LibreOffice 7.4)
        is_apart = not at.StartRow <= place.StartRow <= at.EndRow or not at.StartColumn - 1 <= self.column <= at.EndColumn + 1
        if needs_beside and (self.width == 1 or is_apart):
            raise Refused("nothing_beside")

    def _open(self):
        self.to = self.column - self.left
        self.width, self.height = self.right - self.left + 1, self.bottom - self.top + 1
        self.range = self.sheet.getCellRangeByPosition(self.left, self.top, self.right, self.bottom)
        self.sheet_number = self.range.getRangeAddress().Sheet
        self.merged = list(self._merged()) if self.range.getIsMerged() else []
        self._texts, self._kinds = {}, {}

    @classmethod
    def of_range(cls, doc, sheet, address, to=None):
        """The region of a range: this column of it is filled, without one the last, and the others are read."""
        self = cls.__new__(cls)
        self.doc, self.sheet, self.selected = doc, sheet, None
        self.column = address.EndColumn if to is None else address.StartColumn + to
        used = sheet.createCursor()
        used.gotoEndOfUsedArea(False)
        self.left, self.right, self.top = address.StartColumn, address.EndColumn, address.StartRow
        self.bottom = max(min(address.EndRow, used.getRangeAddress().EndRow), self.top)
        self._open()
        return self

    def cells(self, column):
        """The cells of a column."""
        return self.sheet.getCellRangeByPosition(self.left + column, self.top, self.left + column, self.bottom)

    def place(self, record):
        """A cell of the column to fill."""
        return self.sheet.getCellByPosition(self.column, self.top + record)

    def part(self, first, last):
        """The cells of the column to fill between two records."""
        return self.sheet.getCellRangeByPosition(self.column, self.top + first, self.column, self.top + last)

    def address(self, first, last):
        """The address of these, which costs no call."""
        return CellRangeAddress(self.sheet_number, self.column, self.top + first, self.column, self.top + last)

    def texts(self, column, tick=None):
        """The texts of a column as they are shown; an error has none. `tick` is called now and then where that takes long."""
        if column not in self._texts:
            self._read(column, tick or (lambda: None))
        return self._texts[column]

    def has_values(self, column):
        """Which records of a column hold a number or a date."""
        self.texts(column)
        return self._kinds[column]

    def _read(self, column, tick):
        cells = self.cells(column)
        data = [it[0] for it in cells.getDataArray()]
        texts = [it if isinstance(it, str) else "" for it in data]
        values = _records(cells, cells.queryContentCells(VALUE | DATETIME))
        formulas = _records(cells, cells.queryFormulaCells(IS_VALUE | IS_ERROR))
        formats, shown = by_record(cells, self.top, lambda it: it.NumberFormat) if values else {}, {}
        for count, record in enumerate(values):  # what a value shows follows from it and its format
            key = formats[record], data[record]
            if key not in shown:
                shown[key] = cells.getCellByPosition(0, record).getString()
            texts[record] = shown[key]
            if count % 500 == 0:
                tick()
        for count, record in enumerate(formulas):
            cell = cells.getCellByPosition(0, record)
            texts[record] = "" if cell.getError() else cell.getString()
            if count % 500 == 0:
                tick()
        for row, first, down, right in self.merged:
            if first == column:  # a merged cell counts for all its rows
                texts[row:row + down] = [texts[row]] * len(texts[row:row + down])
            elif first < column < first + right:
                texts[row:row + down] = [""] * len(texts[row:row + down])
        self._texts[column], self._kinds[column] = texts, {*values, *formulas}

    def _merged(self):
        """Row, column, height and width of each merged area."""
        for group in self.range.getUniqueCellFormatRanges():
            for part in group:
                if not part.getIsMerged():
                    continue
                at = part.getRangeAddress()
                for row in range(at.StartRow, at.EndRow + 1):
                    for column in range(at.StartColumn, at.EndColumn + 1):
                        cursor = self.sheet.createCursorByRange(self.sheet.getCellByPosition(column, row))
                        cursor.collapseToMergedArea()
                        area = cursor.getRangeAddress()
                        down, right = area.EndRow - row + 1, area.EndColumn - column + 1
                        if (area.StartRow, area.StartColumn) == (row, column) and down * right > 1:
                            yield row - self.top, column - self.left, down, right

    def formulas(self):
        """The records whose cell of the column to fill has a formula."""
        cells = self.cells(self.to)
        return set(_records(cells, cells.queryContentCells(FORMULA)))

    def held(self):
        """The records whose cell of the column to fill holds something."""
        cells = self.cells(self.to)
        return set(_records(cells, cells.queryContentCells(VALUE | DATETIME | STRING | FORMULA)))

    def covered(self):
        """The records whose cell of the column to fill lies under a merged one."""
        covered = set()
        for row, column, down, right in self.merged:
            if column <= self.to < column + right:
                covered.update(range(row + (column == self.to), row + down))
        return covered

    def open_places(self):
        """The records whose cell of the column to fill may be written, apart from what it holds: those that are seen, not
        protected, not under a merged cell, and in the selection."""
        cells = self.cells(self.to)
        places = set(_records(cells, cells.queryVisibleCells())) - self.covered()
        if self.sheet.isProtected():
            locked = by_record(cells, self.top, lambda it: it.CellProtection.IsLocked)
            places = {it for it in places if not locked[it]}
        if self.selected:
            first, last = (it - self.top for it in self.selected)
            places = {it for it in places if first <= it <= last}
        return places


def _records(cells, ranges):
    """All records of ranges in cells of one column, in order. Beyond the last column that a sheet uses a query answers with that
    one (LibreOffice 7.4)."""
    at = cells.getRangeAddress()
    found = (range(it.StartRow - at.StartRow, it.EndRow - at.StartRow + 1) for it in ranges.getRangeAddresses() if it.StartColumn == at.StartColumn)
    return sorted(record for it in found for record in it)


def by_record(cells, top, asked):
    """What is asked of each cell of a column, by record; it is asked once for all cells of one format."""
    found = {}
    for group in cells.getUniqueCellFormatRanges():
        answer = asked(group.getByIndex(0))
        for part in group:
            at = part.getRangeAddress()
            found.update(dict.fromkeys(range(at.StartRow - top, at.EndRow - top + 1), answer))
    return found




def region_of(doc, controller, needs_beside=True):
    """The region that the selection means: one cell, cells of one column, or a range whose last column is filled."""
    selected = doc.getCurrentSelection()
    if not hasattr(selected, "getRangeAddress"):
        raise Refused("select_one")
    at, sheet = selected.getRangeAddress(), controller.getActiveSheet()
    cell = sheet.getCellByPosition(at.StartColumn, at.StartRow)
    if at.StartColumn != at.EndColumn:
        merged = sheet.createCursorByRange(cell)
        merged.collapseToMergedArea()
        if merged.getRangeAddress().EndColumn != at.EndColumn:
            return Region.of_range(doc, sheet, at)
    is_part = at.StartRow != at.EndRow and at.EndRow - at.StartRow < MOST_ROWS_SELECTED
    return Region(doc, sheet, cell, (at.StartRow, at.EndRow) if is_part else None, needs_beside)
