"""Checks: a column is filled as the program does it, while one types, and what is typed can be taken back."""
import csv
import io
import pathlib

EXAMPLES = pathlib.Path(__file__).resolve().parent.parent.parent / "examples"


def first_visit(trial):
    """The example stands there with given, sure, doubtful and empty cells; a doubt is settled, undone, made again and taken back by keys."""
    trial.start()
    browser, shown = trial.browser, trial.shown()
    states = {state for _, state in shown.values()}
    assert {"given", "sure", "doubt", "none"} <= states, states
    row = trial.active()[0]
    assert shown[row][1] == "doubt", (row, shown)
    other = browser.run("return document.querySelectorAll('#cell .answer-text')[1].textContent;")
    browser.press("Alt+2")
    trial.settle()
    after = trial.shown()
    assert after[row] == (other, "given"), after
    assert sum(state == "doubt" for _, state in after.values()) < sum(state == "doubt" for _, state in shown.values()), after
    if any(state == "doubt" for _, state in after.values()):
        assert after[trial.active()[0]][1] == "doubt", "taking an answer goes to the next doubt"
    browser.press("Control+z")
    trial.settle()
    assert trial.shown()[row] == shown[row]
    browser.press("Control+y")
    trial.settle()
    assert trial.shown()[row][1] == "given"
    trial.go_to(row)
    browser.press("Delete")
    trial.settle()
    assert trial.shown()[row][1] == "doubt"
    trial.is_clean()
    return f"{len(shown)} rows"


def follows_typing(trial):
    """Other rows change while a text is being typed, before Enter, and Escape leaves all as it was."""
    trial.start()
    trial.open_file(EXAMPLES / "people.csv")
    trial.pick(4, [1, 3])
    trial.go_to(4)
    trial.browser.press("Delete")  # row 2 is the one example then, and may have any text
    trial.settle()
    before = trial.shown()
    trial.go_to(2)
    trial.browser.press("F2")
    trial.browser.press("Control+a")
    trial.browser.type("Byron")
    trial.settle()
    during = trial.shown()
    assert during[3][0] != before[3][0], during
    trial.browser.press("Escape")
    trial.settle()
    assert trial.shown() == before, trial.shown()
    trial.is_clean()
    return "rows follow while one types"


def session_of(path):
    """What a session of examples/ reads and adds: its sheet, header, inputs, output, tables with keys, depth and examples."""
    said = {"header": False, "output": None, "adds": [], "tables": {}, "depth": 1}
    for word, *rest in csv.reader(io.StringIO(path.read_text(encoding="utf-8"))):
        if word == "sheet":
            said["sheet"] = rest[0]
        elif word == "header":
            said["header"] = True
        elif word == "inputs":
            said["inputs"] = [int(it) for it in rest]
        elif word == "output":
            said["output"] = int(rest[0])
        elif word == "table":
            said["tables"][rest[0]] = {"file": rest[1], "keys": []}
        elif word == "key":
            said["tables"][rest[0]]["keys"].append(rest[1:])
        elif word == "depth":
            said["depth"] = int(rest[0])
        elif word == "add":
            said["adds"].append((int(rest[0]), rest[1]))
    return said


def examples(trial):
    """The examples of examples/, typed into the page, fill the sheets as the program does."""
    trial.start()
    told = []
    for path in sorted(EXAMPLES.glob("*-session.csv")):
        session = session_of(path)
        sheet = EXAMPLES / session["sheet"]
        trial.open_file(sheet)
        header = trial.browser.run("return document.getElementById('header').checked;")
        if header != session["header"]:
            trial.browser.click("#header")
            trial.settle()
        trial.pick(session["output"], session["inputs"])
        for table in session["tables"].values():
            trial.add_table(EXAMPLES / table["file"], table["keys"])
        if session["depth"] != 1:
            trial.browser.run("const field = document.querySelector('#tables select'); field.value = args[0]; field.dispatchEvent(new Event('change'));", str(session["depth"]))
            trial.settle()
        for row, text in session["adds"]:
            trial.type_into(row + session["header"], text)
        size = trial.compare(sheet)
        told.append(f"{sheet.name} with {len(session['adds'])} typed, {size} bytes")
    trial.is_clean()
    return "; ".join(told)


def odd_sheets(trial):
    """Quotes, line ends in cells, CRLF, a byte order mark, short records, no header, numbers as names: as the program does."""
    trial.start()
    texts = {
        "quotes.csv": 'a,b,c\r\n"x, ""y""",1,\r\n"two\r\nlines",2,\r\n\r\nshort\r\nlast,3,\r\n',
        "mark.csv": "\ufeffName,Out\nAda Byron,\nMax Planck,\n",
        "plain.csv": "Ada Byron\nMax Planck\nLise Meitner\n",
        "numbers.csv": "2,1,x\nAda Byron,Kiel,\nMax Planck,Graz,\n",
        "it's -odd=name.csv": "First,Last,\nAda,Byron,\nMax,Planck,\n",
        "-dash.csv": "-a,b,-c\nAda Byron,1,\nMax Planck,2,\n",
    }
    for name, text in texts.items():
        path = trial.write(name, text)
        trial.open_file(path)
        first = min(row for row in trial.shown())
        trial.type_into(first, "-B=1,")
        trial.compare(path)
    trial.is_clean()
    return f"{len(texts)} sheets"


def own_cells(trial):
    """Given cells of the sheet can be changed, taken back and left empty; the line says all of it."""
    trial.start()
    path = EXAMPLES / "people.csv"
    trial.open_file(path)
    trial.type_into(2, "Byron")
    trial.compare(path)
    trial.go_to(4)
    trial.browser.press("Delete")
    trial.settle()
    assert "--replace" in trial.lines()[0] and trial.shown()[4][1] != "given", trial.lines()
    trial.compare(path)
    trial.go_to(7)
    trial.press("This cell stays empty", "#cell")
    assert "--example 7=" in trial.lines()[0] and trial.shown()[7] == ("", "given"), trial.lines()
    trial.compare(path)
    trial.is_clean()
    return "changed, taken back, left empty"


def emptied(trial):
    """A column of which all examples are taken back is empty, in the page, the download and the lines; the next example fills it anew."""
    trial.start()
    path = EXAMPLES / "people.csv"
    trial.open_file(path)
    trial.pick(4, [1, 3])
    trial.go_to(2)
    trial.browser.press("Shift+Down", "Shift+Down", "Delete")
    trial.settle()
    assert trial.problem() is None and {text for text, _ in trial.shown().values()} == {""}, (trial.problem(), trial.shown())
    assert "type what one cell" in trial.browser.run("return document.getElementById('chips').textContent;")
    empty = "".join(f"{line.rsplit(',', 1)[0]},\n" if at else f"{line}\n" for at, line in enumerate(path.read_text(encoding="utf-8").splitlines()))
    saved = trial.write(path.name, trial.downloaded(lambda: trial.press("Download people.csv")))
    assert saved.read_text(encoding="utf-8") == empty and trial.result().decode() == empty, saved.read_text(encoding="utf-8")
    trial.compare(saved)
    trial.browser.press("Delete")
    trial.settle()
    assert trial.problem() is None and trial.shown()[2][0] == "", trial.shown()
    trial.type_into(3, "Planck (Kiel)")
    assert "--replace" in trial.lines()[0] and trial.shown()[2][0] == "Byron (London)", (trial.lines(), trial.shown())
    trial.compare(path)
    trial.is_clean()
    return "empty, and filled anew"


def corrected(trial):
    """A cell that is read can be corrected: answers follow while one types, the line reads the corrected sheet, undo takes it back."""
    trial.start()
    browser, path = trial.browser, EXAMPLES / "people.csv"
    trial.open_file(path)
    trial.pick(4, [1, 3])
    trial.go_to(3, 1)
    browser.type("Maria Goeppert")
    trial.settle()
    assert trial.shown()[3][0] == "Goeppert (Kiel)", trial.shown()[3]
    browser.press("Enter")
    trial.settle()
    assert trial.shown()[3][0] == "Goeppert (Kiel)", trial.shown()[3]
    saved = trial.folder / path.name
    saved.write_bytes(trial.downloaded(lambda: trial.press("Download people.csv")))
    assert saved.read_bytes() == path.read_bytes().replace(b"Max Planck", b"Maria Goeppert"), saved.read_bytes()
    trial.compare(saved)
    browser.press("Control+z")
    trial.settle()
    assert trial.shown()[3][0] == "Planck (Kiel)", trial.shown()[3]
    trial.compare(path)
    trial.is_clean()
    return "a name, by keys, and back"


def several_columns(trial):
    """Two columns of a sheet and a new one that reads one of them are filled in one go, each with its examples; the lines give the same bytes."""
    trial.start()
    path = trial.write("staff.csv", "Name,City,Badge,Mail\nAda Byron,London,,\nMax Planck,Kiel,,\nLise Meitner,Graz,,\nEmmy Noether,Erlangen,,\n")
    trial.open_file(path)
    trial.pick(3, [1, 2])
    trial.type_into(2, "Byron/London")
    trial.pick(4, [1])
    trial.type_into(2, "ada@x.org")
    assert trial.shown(3)[3][0] == "Planck/Kiel", trial.shown(3)
    trial.pick(3)
    assert trial.shown()[2] == ("Byron/London", "given"), "what was typed stays"
    trial.pick(None, [3])
    trial.type_into(2, "<Byron/London>")
    assert trial.shown()[4][0] == "<Meitner/Graz>", trial.shown()
    assert len(trial.lines()) == 3, trial.lines()
    trial.compare(path)
    trial.browser.run("document.querySelectorAll('#result .check input')[1].click();")
    trial.settle()
    trial.compare(path)
    # the first column changes: what reads it follows
    trial.pick(3)
    trial.type_into(2, "Byron-London")
    trial.settle()
    assert trial.shown(-1)[4][0] == "<Meitner-Graz>" or trial.shown(-1)[2][1] != "", trial.shown(-1)
    trial.compare(path)
    trial.browser.press("Control+z")
    trial.settle()
    assert trial.shown()[2][0] == "Byron/London"
    trial.is_clean()
    return f"{len(trial.lines())} columns"
