"""A browser with the page, as a person uses it, and what it is compared with."""
import pathlib
import re
import shlex
import subprocess
import tempfile
import time

from browser import PATIENCE, Failed

# The texts of a table's keys, and the choice of one of them
TABLE = "const table = [...document.querySelectorAll('#tables .table')].find((it) => it.querySelector('strong').textContent === args[0]);"
KEY_TEXTS = TABLE + "return [...table.querySelectorAll('.chip')].map((it) => it.textContent);"
CHOOSE_KEY = TABLE + """const box = [...table.querySelectorAll('.chip')].find((it) => it.textContent === args[1]).querySelector('input');
if (box.checked !== args[2]) box.click();"""

PRESS = """const found = [...document.querySelectorAll(args[0] + ' button')].find((it) => it.textContent === args[1]);
if (!found) throw new Error('no button ' + args[1]);
found.click();"""

# Writes down the text of the next event of the clipboard, once the page has seen to it
HEARS = """delete document.body.dataset.heard;
addEventListener('%s', (event) => { document.body.dataset.heard = event.clipboardData.getData('text/plain'); }, { once: true });"""

SHOWN = """return [...document.querySelectorAll('.body .row:not([hidden])')].map((row) => {
    const cell = row.querySelector(`.cell[data-column="${args[0] ?? document.querySelector('.title.fills .edge').dataset.column}"]`);
    const state = [...cell.classList].filter((it) => !['cell', 'fills', 'filled', 'active', 'picked'].includes(it)).join(' ');
    return [Number(row.dataset.record) + 1, cell.querySelector('.text').textContent, state];
});"""


class Trial:
    """A browser with the page at an address, and what it is compared with."""

    def __init__(self, browser, address, programs):
        self.browser, self.address, self.programs = browser, address, programs
        self.room = tempfile.TemporaryDirectory(prefix="page-trial-", ignore_cleanup_errors=True)
        self.folder = pathlib.Path(self.room.name)

    def start(self):
        """Opens the page, and waits until its example is filled."""
        self.browser.requests()
        self.browser.errors()  # those of the page before
        self.browser.open("about:blank")  # an address that differs from the last one behind `#` alone would load nothing anew
        self.browser.open(self.address)
        self.browser.wait("Number(document.body.dataset.filled ?? 0) > 0 || !document.getElementById('problem').hidden", "the example is filled")
        assert self.problem() is None, self.problem()
        return self.settle()

    def settle(self):
        """Waits until the page has done all that was asked of it."""
        self.browser.wait("document.body.dataset.rest === 'true' || (!document.body.dataset.rest && !document.getElementById('problem').hidden)", "the page comes to rest")
        return self

    def open_file(self, path):
        """Opens a sheet by the button's file field. The page empties the field when it is done."""
        self.browser.put_file("#file", path)
        self.browser.wait("document.getElementById('file').value === ''", f"{path} is opened")
        return self.settle()

    def write(self, name, data):
        """A file of this name in the folder of the trial."""
        path = self.folder / name
        path.write_bytes(data if isinstance(data, bytes) else data.encode())
        return path

    def problem(self):
        """What the page says is wrong; None where nothing is."""
        return self.browser.run("const place = document.getElementById('problem'); return place.hidden ? null : place.textContent;")

    def note(self):
        """What the page notes above the sheet; None where it notes nothing."""
        return self.browser.run("const place = document.getElementById('notice'); return place.hidden ? null : place.querySelector('p').textContent;")

    def pick(self, target, sources=None):
        """Chooses the column to fill, a number or None for a new one, and the columns to read."""
        self.browser.run("const field = document.getElementById('target'); field.value = args[0]; field.dispatchEvent(new Event('change', {bubbles: true}));",
                         "new" if target is None else str(target))
        self.settle()
        if sources is not None:
            self.browser.run("for (const box of document.querySelectorAll('#sources input')) box.checked = args[0].includes(Number(box.value));"
                             "document.getElementById('sources').dispatchEvent(new Event('change', {bubbles: true}));", sources)
            self.settle()

    def add_table(self, path, keys):
        """Adds a lookup table, and chooses these of its keys, lists of columns."""
        self.browser.put_file("#tables input[type=file]", path)
        self.browser.wait(f"[...document.querySelectorAll('#tables strong')].some((it) => it.textContent === '{path.name}')", f"{path.name} is added")
        self.settle()
        wanted = [("columns " if len(it) > 1 else "column ") + " + ".join(it) + " (" for it in keys]
        for is_on in (True, False):  # one key at least stays chosen
            for text in self.browser.run(KEY_TEXTS, path.name):
                if any(text.startswith(it) for it in wanted) == is_on:
                    self.browser.run(CHOOSE_KEY, path.name, text, is_on)
                    self.settle()

    def go_to(self, row, column=None):
        """Moves to a cell of a row, as the sheet shows it, by keys alone: that of the filled column, or of the title at a place."""
        browser = self.browser
        browser.run("document.getElementById('grid').focus();")
        browser.press("Control+Home")
        first = browser.run("return Number(document.querySelector('.cell.active').parentElement.dataset.record) + 1;")
        browser.press("Home", *["Down"] * (row - first))
        if column is None:
            column = browser.run("return [...document.querySelectorAll('.title')].findIndex((it) => it.classList.contains('fills')) + 1;")
        if column > 1:
            browser.press(*["Right"] * (column - 1))
        return self.settle()

    def type_into(self, row, text, column=None):
        self.go_to(row, column)
        self.browser.type(text)
        self.browser.press("Enter")
        return self.settle()

    def paste(self, text):
        """Pastes a text into the chosen cell, by keys: it is copied out of a field that is there for that alone."""
        browser = self.browser
        browser.run("""const field = document.createElement('textarea');
            field.value = args[0];
            field.id = 'carrier';
            document.body.append(field);
            field.focus();
            field.select();""", text)
        browser.press("Control+c")
        browser.run("document.getElementById('carrier').remove(); document.getElementById('grid').focus({ preventScroll: true });" + HEARS % "paste")
        browser.press("Control+v")
        browser.wait("document.body.dataset.heard !== undefined", "cells are pasted")
        return self.settle()

    def copied(self):
        """What is copied of the cells that are picked, by keys."""
        self.browser.run("document.getElementById('grid').focus({ preventScroll: true });" + HEARS % "copy")
        self.browser.press("Control+c")
        self.browser.wait("document.body.dataset.heard !== undefined", "cells are copied")
        return self.browser.run("return document.body.dataset.heard;")

    def shown(self, column=None):
        """The texts and states of the rows in view in the column that is worked on, or in another one, by record."""
        return {row: (text, state) for row, text, state in self.browser.run(SHOWN, column)}

    def active(self):
        """The row and the column of the chosen cell; None where it is not in view."""
        return self.browser.run("const cell = document.querySelector('.cell.active'); return cell && [Number(cell.parentElement.dataset.record) + 1, Number(cell.dataset.column)];")

    def downloaded(self, act):
        """The bytes of the file that the page hands out when something is done."""
        for old in self.browser.downloads.glob("*"):
            old.unlink()
        act()
        end, size = time.monotonic() + PATIENCE, 0
        while time.monotonic() < end:
            files = list(self.browser.downloads.glob("*"))
            if len(files) == 1 and not files[0].name.startswith(".") and files[0].suffix not in (".crdownload", ".part", ".tmp"):
                # an empty file of its name may stand there before it, and it may still grow
                before, size = size, files[0].stat().st_size
                if size == before > 0:
                    self.settle()
                    return files[0].read_bytes()
            time.sleep(0.05)
        raise Failed("nothing was downloaded")

    def result(self):
        """The bytes of the filled sheet."""
        return self.downloaded(lambda: self.browser.run("document.getElementById('download').click();"))

    def press(self, text, place="#result"):
        """Presses the button that is called so."""
        self.browser.run(PRESS, place, text)
        return self.settle()

    def lines(self):
        """The lines that the page shows for a terminal; a text in one may have line ends."""
        return re.split(r"\n(?=\./fillcsv )", self.browser.run("return document.querySelector('#terminal code').textContent;"))

    def by_program(self, folder):
        """What the program writes for the lines that the page shows, run one after the other in a folder."""
        made = None
        with tempfile.TemporaryDirectory() as place:
            for path in pathlib.Path(folder).iterdir():
                pathlib.Path(place, path.name).symlink_to(path.resolve())
            for line in self.lines():
                words = shlex.split(line)
                assert words[0] == "./fillcsv", words
                target = words[words.index(">") + 1] if ">" in words else None
                ran = subprocess.run([self.programs["fillcsv"], *words[1:words.index(">") if target else None]], cwd=place, stdin=subprocess.DEVNULL, capture_output=True, timeout=PATIENCE)
                assert ran.returncode <= 1, ran.stderr
                made = ran.stdout
                if target:
                    pathlib.Path(place, target).write_bytes(made)
        return made

    def compare(self, folder):
        """The filled sheet is that of the program, byte for byte. The files are in a folder, or that of a file."""
        folder = folder.parent if folder.is_file() else folder
        got, wanted = self.result(), self.by_program(folder)
        assert got == wanted, f"{self.lines()}\n  page    {got[:300]!r}\n  program {wanted[:300]!r}"
        return len(got)

    def is_clean(self):
        """No error on the console, and no request to another place."""
        errors = self.browser.errors()
        assert not errors, f"on the console: {errors}"
        base = self.address.rsplit("/", 1)[0]
        asked = [it for it in self.browser.requests() if not it.startswith((base, "data:", "chrome://", "blob:"))]
        assert not asked, f"requests to elsewhere: {asked}"
