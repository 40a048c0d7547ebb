"""Writes cells of a column, so that one step undoes it."""
import re

DATETIME = 6  # com.sun.star.util.NumberFormat
PLAIN_NUMBER = re.compile(r"-?(0|[1-9]\d{0,14})$")


class OneStep:
    """All that is done within is one step to undo, and is shown at its end."""

    def __init__(self, doc, title):
        self.doc, self.title = doc, title

    def __enter__(self):
        self.doc.getUndoManager().enterUndoContext(self.title)
        self.doc.lockControllers()
        self.doc.addActionLock()

    def __exit__(self, *_):
        self.doc.removeActionLock()
        self.doc.unlockControllers()
        self.doc.getUndoManager().leaveUndoContext()


def runs(records):
    """Consecutive records together: the first and the last of each run."""
    found = []
    for it in sorted(records):
        if found and found[-1][1] + 1 == it:
            found[-1][1] = it
        else:
            found.append([it, it])
    return found


def write(region, texts, numbers):
    """Makes these texts, by record, stand in the column; as numbers where `numbers` makes one of them."""
    stands, noted = region.texts(region.to), _noted(region)
    changed = {record for record, text in texts.items() if text != stands[record]}
    for record in changed & noted:
        _write_each(region, record, record, texts, numbers)
    changed -= noted
    for first, last in runs(texts.keys() - noted):
        inside = sorted(it for it in range(first, last + 1) if it in changed)
        if inside and len(inside) * 2 > inside[-1] - inside[0]:  # what stays between them is written again: that is fast
            parts = [(inside[0], inside[-1])]
        else:
            parts = runs(inside)
        for part in parts:
            (_write_each if part[1] - part[0] < 2 else _write_run)(region, *part, texts, numbers)


def _write_each(region, first, last, texts, numbers):
    for record in range(first, last + 1):
        cell, value = region.place(record), numbers.value(texts[record])
        if isinstance(value, str):
            cell.setString(value)
        else:
            cell.NumberFormat = numbers.format
            cell.setValue(value)


def _write_run(region, first, last, texts, numbers):
    """Writes a run at once. The undo of `setDataArray` does not empty cells again (LibreOffice 7.4), but that of a copy before
    it does, even of cells onto themselves. Such a copy loses notes; cells with notes are in no run."""
    cells = region.part(first, last)
    region.sheet.copyRange(cells.getCellByPosition(0, 0).getCellAddress(), cells.getRangeAddress())
    values = [numbers.value(texts[it]) for it in range(first, last + 1)]
    if any(not isinstance(it, str) for it in values):
        cells.NumberFormat = numbers.format
    cells.setDataArray(tuple((it,) for it in values))


def _noted(region):
    """The records whose cell of the column has a note."""
    notes = region.sheet.getAnnotations()
    places = (notes.getByIndex(it).getPosition() for it in range(notes.getCount()))
    return {it.Row - region.top for it in places if it.Column == region.column}


class Texts:
    """Answers stay texts."""

    format = None

    def value(self, text):
        return text


TEXTS = Texts()


class Numbers:
    """Makes numbers of answers where each example is one, in the format of the first of them."""

    def __init__(self, context, region, examples):
        self.format, self._known = None, {}
        values = region.has_values(region.to)
        if examples and all(it in values for it in examples):
            self.format = region.place(min(examples)).NumberFormat
            self._formatter = context.ServiceManager.createInstanceWithContext("com.sun.star.util.NumberFormatter", context)
            self._formatter.attachNumberFormatsSupplier(region.doc)
            self._is_time = bool(region.doc.getNumberFormats().getByKey(self.format).Type & DATETIME)

    def value(self, text):
        """A number, or the text where it is none."""
        if self.format is None or not text:
            return text
        if text not in self._known:
            self._known[text] = self._number(text)
        return self._known[text]

    def _number(self, text):
        if PLAIN_NUMBER.match(text) and not self._is_time:
            return float(text)
        try:
            value = self._formatter.convertStringToNumber(self.format, text)
            is_other = self._is_time and self._formatter.convertNumberToString(self.format, value) != text
        except Exception:  # com.sun.star.util.NotNumericException, and whatever else says that it is none
            return text
        return text if is_other else value  # a date that would show as another one stays a text
