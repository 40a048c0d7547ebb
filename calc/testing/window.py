"""Real keys in a real window, under Xvfb; leaves pictures of what a person sees."""
import os
import subprocess
import sys
import time

from bench import EXAMPLES, Bench
from office import Office

WIDTH, HEIGHT = 1280, 800
PATIENCE = 300  # seconds
DRAWING = 3  # seconds


class Window:
    """A display of its own with LibreOffice on it. Whatever is asked of LibreOffice runs in its main thread."""

    def __init__(self, folder, pictures, *words):
        read, write = os.pipe()
        self.server = subprocess.Popen(["Xvfb", "-displayfd", str(write), "-screen", "0", f"{WIDTH}x{HEIGHT}x24", "-nolisten", "tcp"], pass_fds=(write,), stderr=subprocess.DEVNULL)
        os.close(write)
        os.environ["DISPLAY"] = ":" + os.read(read, 20).decode().strip()
        self.pictures = pictures
        pictures.mkdir(parents=True, exist_ok=True)
        try:
            self.office = Office(folder, *words)
        except BaseException:
            self.server.terminate()
            raise
        self.bench = Bench(self.office, folder, None)

    def show(self, made, cell, widths):
        """Shows a sheet over the whole display, with a cell selected. `made` makes it."""
        def shown():
            sheet = made()
            for at, width in enumerate(widths):
                sheet.sheet.Columns.getByIndex(at).Width = width
            window = sheet.doc.CurrentController.Frame.ContainerWindow
            window.setPosSize(0, 0, WIDTH, HEIGHT, 15)
            sheet.doc.CurrentController.select(sheet.cell(cell))
            window.setFocus()
            return sheet
        sheet = self.office.run(shown)
        time.sleep(DRAWING)
        return sheet

    def until(self, what, *keys):
        """Waits until something holds, and presses keys until then."""
        end = time.monotonic() + PATIENCE
        while not self.office.run(what):
            assert time.monotonic() < end, "nothing happened"
            if keys:
                self.keys(*keys)
            time.sleep(0.2)

    def dialog(self, title):
        """Waits for a dialog, and gives it the keys, as a window manager does."""
        wait = ["xdotool", "search", "--sync", "--onlyvisible", "--name", f"^{title}$", "windowfocus"]
        subprocess.run(wait, check=True, timeout=PATIENCE, stdout=subprocess.DEVNULL)
        time.sleep(DRAWING)

    def keys(self, *keys):
        subprocess.run(["xdotool", "key", "--delay", "100", *keys], check=True)

    def type(self, text):
        subprocess.run(["xdotool", "type", "--delay", "40", text], check=True)

    def picture(self, name):
        time.sleep(DRAWING)
        subprocess.run(["import", "-window", "root", f"{self.pictures}/{name}.png"], check=True)

    def close(self):
        self.office.close()
        self.server.terminate()
        self.server.wait()


def run(folder, pictures, *words):
    """Does by keys what the menu has, and ends a long run by Esc. Returns whether all went well."""
    window = Window(folder, pictures, *words)
    try:
        sheet = answers(window)
        dialogs(window, sheet, folder / "window.rule")
        esc(window)
    except BaseException:
        window.picture("failed")
        raise
    finally:
        window.close()
    said = (folder / "said").read_text()
    if "Traceback" in said:
        print(said, file=sys.stderr)
        return False
    print(f"calc: the window's checks passed; pictures of {', '.join(sorted(it.name for it in pictures.glob('*.png')))}")
    return True


def answers(window):
    """Types an example, fills by Ctrl+E, takes an answer, and undoes that."""
    sheet = window.show(lambda: window.bench.example("people.csv"), "D2", (4000, 4500, 3000, 5500))
    window.office.run(lambda: sheet.cell("D2").setString(""))
    window.type("Byron (London)")
    window.keys("ctrl+e")  # while one types: the text is entered first
    window.until(lambda: sheet.has_bar and sheet.texts("D3:D3") == ["Planck (Kiel)"])
    window.keys("ctrl+shift+e")
    window.until(lambda: sheet.doc.CurrentSelection.AbsoluteName.endswith("$D$5"))
    window.picture("answers")
    window.keys("alt+2")
    window.until(lambda: sheet.has_bar and sheet.texts("D5:D5") == ["Noether (Erlangen)"])
    window.picture("taken")
    window.keys("ctrl+z")
    window.until(lambda: sheet.texts("D5:D5") == ["A Noether (Erlangen)"] and not sheet.has_bar)
    window.keys("alt+d")
    window.picture("menu")
    window.keys("Escape", "Escape")
    return sheet


def dialogs(window, sheet, path):
    """Leaves the column Mail out, saves the rule, and runs it on another sheet."""
    window.keys("alt+d", "m")
    window.dialog("Columns to Read")
    window.keys("Tab", "space")
    window.picture("columns")
    window.keys("Return")
    window.until(lambda: sheet.has_bar and sheet.marked("D1:D7") == [5])
    window.keys("ctrl+shift+e", "alt+2")
    window.until(lambda: sheet.texts("D5:D5") == ["Noether (Erlangen)"])
    window.keys("alt+d", "e")
    window.dialog("Save as")
    window.keys("ctrl+a")
    window.type(str(path))
    window.picture("save")
    window.keys("Return")
    window.until(path.is_file)
    assert path.read_bytes() == (EXAMPLES / "label.rule").read_bytes()
    more = window.show(lambda: window.bench.example("more-people.csv"), "A1", (4000, 4500, 3000, 5500))
    window.keys("alt+d", "u")
    window.dialog("Open")
    window.keys("ctrl+a")
    window.type(str(path))
    window.picture("run")
    window.keys("Return")
    wanted = [row[3] for row in window.bench.records("more-people-filled.csv")]
    window.until(lambda: more.texts("D1:D6") == wanted)
    window.picture("ran")


def esc(window):
    """Esc ends a long run with nothing changed."""
    rows = [("Name", "Last"), ("Ada Byron", "Byron")] + [(f"Max P{at} Planck{at}", "") for at in range(300000)]
    sheet = window.show(lambda: window.bench.new(rows), "B3", (6000, 4000))
    before = window.office.run(lambda: sheet.steps)
    window.keys("ctrl+e")
    window.until(lambda: sheet.has_bar, "Escape")
    told = window.office.run(lambda: (sheet.told, sheet.texts("B3:B3"), sheet.steps))
    assert "Nothing was changed" in told[0] and told[1:] == ([""], before), told
