"""Checks: people's own files are opened as they are, refused for a reason, kept, pasted and run through saved rules."""
import csv
import io
import shlex
import subprocess

from filling import EXAMPLES

PLAIN = "Name,City,Price,Label\nAda Byron,London,\"1,50\",Byron (London)\nMax Planck,Kiel,\"2,30\",\nEva Köhler,Köln,\"7,10\",\n"


def with_separator(text, separator):
    """The same sheet with another separator, by Python's csv module."""
    out = io.StringIO()
    csv.writer(out, delimiter=separator, lineterminator="\n").writerows(csv.reader(io.StringIO(text)))
    return out.getvalue()


def formats(trial):
    """Separators and encodings are seen and said; the download has the separator that came; the converted file gives the same by the program."""
    trial.start()
    semicolons = with_separator(PLAIN, ";")
    files = {
        "latin.csv": (semicolons.replace("\n", "\r\n").encode("cp1252"), ";", "\ufeff", "Windows-1252"),
        "tabs.tsv": (with_separator(PLAIN, "\t").encode("utf-16"), "\t", "\ufeff", "UTF-16"),
        "named.csv": (f"sep=;\n{semicolons}".encode(), ";", "sep=;\n", "semicolons"),
    }
    for name, (data, separator, start, told) in files.items():
        trial.open_file(trial.write(name, data))
        assert told in (trial.note() or ""), (name, trial.note())
        trial.pick(4, [1, 2])
        assert trial.shown()[4] == ("Köhler (Köln)", trial.shown()[4][1]), (name, trial.shown())
        converted = shlex.split(trial.lines()[0])[1]
        trial.write(converted, trial.downloaded(lambda: trial.press(f"Download {converted}")))
        wanted = start + with_separator(trial.by_program(trial.folder).decode(), separator)
        got = trial.result().decode()
        assert got == wanted, (name, got, wanted)
    trial.is_clean()
    return ", ".join(files)


def refused(trial):
    """What is no text, packed or empty is refused for its reason, and the old sheet stays; a clash is told."""
    trial.start()
    old = trial.shown()
    told = []
    for name, data, reason in (
        ("book.xlsx", b"PK\x03\x04\x14\x00\x06\x00" + b"[Content_Types].xml" + bytes(40), "Save it as CSV"),
        ("book.ods", b"PK\x03\x04" + bytes(26) + b"mimetypeapplication/vnd.oasis.opendocument.spreadsheet", "extension for LibreOffice"),
        ("picture.png", b"\x89PNG\r\n\x1a\n" + bytes(range(256)), "no text"),
        ("empty.csv", b"", "empty.csv has no rows."),
        ("blank.csv", b"\n\n\r\n", "blank.csv has no rows."),
    ):
        trial.open_file(trial.write(name, data))
        assert reason in (trial.problem() or ""), (name, trial.problem())
        assert trial.shown() == old, name
        told.append(name)
    trial.open_file(trial.write("clash.csv", "In,Out\nab,x\nab,\ncd,y\n"))
    assert trial.problem() is None, trial.problem()
    trial.type_into(3, "z")
    assert trial.shown()[3] == ("z", "given refused"), trial.shown()
    trial.go_to(3)
    assert "not used as an example" in trial.browser.run("return document.getElementById('cell').textContent;")
    trial.compare(trial.folder)
    trial.is_clean()
    return ", ".join([*told, "a clash"])


def beyond_16_mib(trial):
    """A sheet of more than 16 MiB has all its rows, in the page and in the download."""
    trial.start()
    lines = [f"Person {row} Byron,{'x' * 1800}," for row in range(1, 10001)]
    path = trial.write("long.csv", "Name,Note,Label\n" + "\n".join(lines) + "\n")
    assert path.stat().st_size > 17 * 2**20
    trial.open_file(path)
    size = trial.browser.run("return document.getElementById('file-size').textContent;")
    assert size == "10,000 rows", size
    trial.pick(3, [1])
    trial.type_into(2, "Byron 1")
    return f"{trial.compare(path)} bytes"


def line_ends(trial):
    """A cell with line ends stays in its row, and its text stays what it is."""
    trial.start()
    path = trial.write("lines.csv", 'Name,Note,Out\nAda,"one\ntwo\nthree",\nMax,"x\r\ny",\n')
    trial.open_file(path)
    boxes = trial.browser.run("""return [...document.querySelectorAll('.body .row:not([hidden])')].map((row) => [row.getBoundingClientRect().height,
        ...[...row.children].map((it) => it.getBoundingClientRect().height)]).flat();""")
    assert max(boxes) <= 30, boxes
    trial.go_to(2, 2)
    assert trial.copied() == "one\ntwo\nthree", trial.copied()
    assert trial.shown(2)[2][0] == "one↵two↵three", trial.shown(2)
    trial.type_into(2, "A")
    trial.compare(path)
    trial.is_clean()
    return "rows of 30 pixels"


def pasted(trial):
    """Pasted cells become a sheet, or go into the cells as in a spreadsheet: quotes, line ends, several columns; one undo takes them back."""
    trial.start()
    browser = trial.browser
    browser.click("#paste")
    before = browser.run("return document.body.dataset.filled;")
    browser.run("document.getElementById('paste-text').value = 'Name\\tCity\\tOut\\nAda Byron\\tKiel\\t\\n\"Max \"\"M\"\" Planck\"\\tGraz\\t\\nEva\\tBonn\\t\\n';")
    browser.click("#paste-dialog button.main")
    browser.wait(f"document.body.dataset.filled !== '{before}'", "pasted cells are opened")
    trial.settle()
    trial.type_into(2, "Byron")
    saved = trial.downloaded(lambda: trial.press("Download pasted.csv"))
    assert saved == b'Name,City,Out\nAda Byron,Kiel,\n"Max ""M"" Planck",Graz,\nEva,Bonn,\n', saved
    trial.write("pasted.csv", saved)
    trial.compare(trial.folder)
    trial.go_to(2)
    trial.paste('"line1\nline2"\n"He said ""hi"""\n')
    assert trial.shown()[2][0] == "line1↵line2" and trial.shown()[3][0] == 'He said "hi"', trial.shown()
    trial.go_to(2)
    assert trial.copied() == "line1\nline2"
    trial.compare(trial.folder)
    browser.press("Control+z")
    trial.settle()
    assert trial.shown()[2][0] == "Byron"
    trial.go_to(2, 1)
    trial.paste("Ann Lee\tRom\nBo Li\tWien\n")
    assert [trial.shown(1)[row][0] for row in (2, 3, 4)] == ["Ann Lee", "Bo Li", "Eva"] and trial.shown(2)[3][0] == "Wien", trial.shown(1)
    trial.go_to(4, 2)
    trial.paste("Ulm\tgone\tlost\nand\tthis\tone")
    assert "4 of the pasted cells" in (trial.note() or ""), trial.note()
    trial.is_clean()
    return "a sheet, a column, cells beside each other"


def kept(trial):
    """Opening another sheet can be undone; closing asks; what was done is kept, and comes back after a reload."""
    trial.start()
    browser = trial.browser
    browser.run("indexedDB.deleteDatabase('flashfill');")
    asks = "const event = new Event('beforeunload', { cancelable: true }); window.dispatchEvent(event); return event.defaultPrevented;"
    assert not browser.run(asks), "nothing was done yet"
    path = EXAMPLES / "people.csv"
    trial.open_file(path)
    trial.pick(4, [1, 3])
    trial.type_into(5, "Noether (Erlangen)")
    assert browser.run(asks), "closing asks"
    filled = trial.shown()
    trial.open_file(trial.write("other.csv", "A,B\n1,\n2,\n"))
    assert len(trial.shown()) == 2
    browser.press("Control+z")
    trial.settle()
    assert trial.shown() == filled, trial.shown()
    trial.compare(path)
    assert not browser.run(asks), "it was downloaded"
    browser.wait("document.body.dataset.kept === 'true'", "what was done is kept")
    trial.start()
    assert "people.csv" in (trial.note() or ""), trial.note()
    trial.press("Reopen people.csv", "#notice")
    trial.settle()
    assert trial.shown() == filled, trial.shown()
    trial.compare(path)
    trial.is_clean()
    return "undone, asked, reopened"


def rule_like_the_program(trial, path):
    """Saves the rule of a sheet, which must be the file of `fillcsv --save-rule`. Its bytes and what is told; no bytes where it is told why not."""
    saved = trial.folder / "saved.rule"
    saved.unlink(missing_ok=True)
    ran = subprocess.run([trial.programs["fillcsv"], *shlex.split(trial.lines()[0])[1:], "--save-rule", saved], cwd=path.parent, stdin=subprocess.DEVNULL, capture_output=True, text=True, timeout=120)
    rule = trial.downloaded(lambda: trial.press("Save the rule")) if saved.exists() else trial.press("Save the rule") and None
    told = trial.browser.run("return document.querySelector('#rule').textContent;")
    assert rule == saved.read_bytes() if saved.exists() else " ".join(told.split()) in " ".join(ran.stderr.split()), (rule, told, ran)
    return rule, told


def saved_rule(trial):
    """The saved rule is the file of `fillcsv --save-rule`; dropped on another sheet it fills that as `fillcsv --rule` does, with a table too."""
    trial.start()
    path = EXAMPLES / "people.csv"
    trial.open_file(path)
    trial.pick(4, [1, 3])
    trial.type_into(5, "Noether (Erlangen)")
    rule, _ = rule_like_the_program(trial, path)
    words = shlex.split(trial.browser.run("return document.querySelector('#rule code').textContent;"))
    assert words[0] == "./fillcsv" and words[3:] == ["<", "OTHER.csv", ">", "FILLED.csv"], words
    trial.write("label.rule", rule)
    trial.open_file(EXAMPLES / "more-people.csv")
    trial.open_file(trial.folder / "label.rule")
    assert trial.problem() is None and "label.rule filled the sheet" in (trial.note() or ""), (trial.problem(), trial.note())
    got = trial.downloaded(lambda: trial.press("Download it", "#notice"))
    assert got == (EXAMPLES / "more-people-filled.csv").read_bytes(), got
    trial.browser.press("Control+z")
    trial.settle()
    assert trial.browser.run("return document.getElementById('file-name').textContent;") == "more-people.csv"
    trial.open_file(EXAMPLES / "sales.csv")
    trial.add_table(EXAMPLES / "months.csv", [["1"]])
    with_table, _ = rule_like_the_program(trial, EXAMPLES / "sales.csv")
    saved = trial.write("month.rule", with_table)
    trial.press("Remove", "#tables")
    trial.open_file(saved)
    assert "looks up in months.csv: add that" in (trial.problem() or ""), trial.problem()
    trial.add_table(EXAMPLES / "months.csv", [["1"]])
    trial.open_file(saved)
    assert trial.problem() is None and "month.rule filled the sheet" in (trial.note() or ""), (trial.problem(), trial.note())
    trial.is_clean()
    return f"{len(got)} bytes by a dropped rule"
