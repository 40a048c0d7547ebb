"""What the checks work with: sheets in LibreOffice, and what `fillcsv` writes."""
import csv
import io
import pathlib
import shutil
import subprocess

import uno
from office import bar_of, value

EXAMPLES = pathlib.Path(__file__).resolve().parents[2] / "examples"
STYLE = "Fill by Example: to check"


class Sheet:
    """A document, and what can be asked of its first sheet."""

    def __init__(self, office, doc):
        self.office, self.doc, self.sheet = office, doc, doc.Sheets.getByIndex(0)

    def put(self, rows):
        self.sheet.getCellRangeByPosition(0, 0, len(rows[0]) - 1, len(rows) - 1).setDataArray(tuple(map(tuple, rows)))
        self.doc.UndoManager.clear()
        return self

    def cell(self, name):
        return self.sheet.getCellRangeByName(name)

    def format(self, cells, code):
        key = self.doc.NumberFormats.queryKey(code, uno.createUnoStruct("com.sun.star.lang.Locale"), False)
        self.cell(cells).NumberFormat = key

    def run(self, command, select=None, **options):
        if select:
            self.doc.CurrentController.select(self.doc.CurrentController.ActiveSheet.getCellRangeByName(select))
        self.office.command(self.doc, command, **options)
        return self

    def texts(self, cells):
        """The texts of cells of one column, as they are shown."""
        area, values = self.cell(cells), self.values(cells)
        if all(isinstance(it, str) for it in values):  # one call
            return values
        return [area.getCellByPosition(0, it).String for it in range(area.Rows.Count)]

    def values(self, cells):
        return [it[0] for it in self.cell(cells).getDataArray()]

    def marked(self, cells):
        """The rows of cells with the style of doubt."""
        area = self.cell(cells)
        first = area.RangeAddress.StartRow + 1
        return [first + it for it in range(area.Rows.Count) if area.getCellByPosition(0, it).CellStyle.startswith(STYLE)]

    def notes(self):
        notes = self.sheet.Annotations
        return {it.Position.Row + 1: it.String for it in (notes.getByIndex(at) for at in range(notes.Count))}

    def add(self, name, rows):
        """One more sheet."""
        self.doc.Sheets.insertNewByName(name, self.doc.Sheets.Count)
        self.doc.Sheets.getByName(name).getCellRangeByPosition(0, 0, len(rows[0]) - 1, len(rows) - 1).setDataArray(tuple(map(tuple, rows)))
        return self

    def undo(self):
        self.doc.UndoManager.undo()
        return self

    def redo(self):
        self.doc.UndoManager.redo()
        return self

    @property
    def steps(self):
        return list(self.doc.UndoManager.getAllUndoActionTitles())

    @property
    def has_bar(self):
        return self.doc.CurrentController.hasInfobar("org.flashfill")

    @property
    def told(self):
        """The text of the bar."""
        return (bar_of(self.doc) or ("",))[0]

    @property
    def buttons(self):
        return bar_of(self.doc)[1]

    def store(self, path, kind):
        """Saves the document, and closes it."""
        self.doc.storeToURL(uno.systemPathToFileUrl(str(path)), (value("FilterName", kind),))
        self.doc.close(True)


class Bench:
    """Makes sheets for one check, and closes them after it."""

    def __init__(self, office, folder, fillcsv):
        self.office, self.folder, self.fillcsv, self.made = office, folder, fillcsv, []
        self.examples = shutil.copytree(EXAMPLES, folder / "examples")  # LibreOffice locks what it opens

    def new(self, rows):
        return self._keep(self.office.new()).put(rows)

    def open(self, path, *how):
        return self._keep(self.office.open(path, *how))

    def example(self, name):
        """A sheet of examples/."""
        return self._keep(self.office.open_csv(self.examples / name))

    def _keep(self, doc):
        self.made.append(doc)
        return Sheet(self.office, doc)

    def records(self, name):
        """The records of a file of examples/."""
        return records_of((EXAMPLES / name).read_bytes())

    def written(self, *words, stdin=b""):
        """The records that `fillcsv` writes, in examples/."""
        return records_of(self.fillcsv(words, stdin))

    def close(self):
        for it in self.made:
            try:
                it.close(True)
            except Exception:  # it was closed by the check
                pass
        self.made = []


def records_of(sheet):
    return list(csv.reader(io.StringIO(sheet.decode(), newline="")))


def by_program(path):
    """`fillcsv` as a program."""
    def fillcsv(words, stdin):
        done = subprocess.run([path, *words], cwd=EXAMPLES, input=stdin, stdout=subprocess.PIPE, stderr=subprocess.DEVNULL, check=True)
        return done.stdout
    return fillcsv


def by_library(engine):
    """`fillcsv` as a call of the engine that the extension has."""
    def fillcsv(words, stdin):
        files = {it.name: it.read_bytes() for it in EXAMPLES.iterdir()}
        answer = engine.run("fillcsv", list(words), {**files, "-": stdin})
        assert answer.status <= 1, answer.err
        return answer.out
    return fillcsv
