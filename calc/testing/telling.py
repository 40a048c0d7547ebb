"""Checks of what is told, of rules in files, and of the sheets in examples/ beside what `fillcsv` writes."""
import string

from bench import EXAMPLES
from filling import last
from fillbyexample.words import LANGUAGES
from office import value


def url(path):
    return f"file://{path}"


def check_the_bar_tells_all(it):
    sheet = it.example("people.csv").run("fill", "D3")
    assert sheet.told == 'Fill by Example: 3 filled, 2 to check, 1 left empty. Rule: Name after the first space, " (", City, ")". Row 5: “A Noether (Erlangen)” or “Noether (Erlangen)”?'
    assert sheet.buttons == ["1: A Noether (Erlangen)", "2: Noether (Erlangen)", "Next to Check", "Columns", "Row 1 Is No Header", "Clear Marks"]
    sheet.run("second#bar", "A1")  # the bar's buttons mean its column, wherever the selection is
    assert sheet.texts("D5:D5") == ["Noether (Erlangen)"]


def check_clashing_examples_are_told(it):
    sheet = it.new([("Name", "L"), ("Ada Byron", "Byron"), ("Max Planck", "Planck"), ("Max Planck", "Max"), ("Lise Meitner", "")]).run("fill", "B5")
    assert "row 4 is not learned from: row 3 reads the same cells and has another text" in sheet.told, sheet.told
    assert sheet.texts("B2:B5") == ["Byron", "Planck", "Max", "Meitner"]


def check_rows_are_those_of_the_sheet(it):
    sheet = it.new([("", "")] * 3 + [("Name", "L"), ("Ada Byron", "Byron"), ("Max Planck", "Planck"), ("Max Planck", "Max"), ("Lise Meitner", "")]).run("fill", "B8")
    assert "row 7 is not learned from: row 6 reads" in sheet.told, sheet.told


def check_long_cells_are_told(it):
    sheet = it.new([("Text", "L"), ("a" * 1001, "a"), ("b" * 20, "")]).run("fill", "B3")
    assert "1001 characters to read, and an example has 1000 at most" in sheet.told, sheet.told
    sheet = it.new([("Text", "L"), ("b" * 200, "b" * 101), ("b" * 20, "")]).run("fill", "B3")
    assert "101 characters, and an example has 100 at most" in sheet.told, sheet.told


def check_what_cannot_be_filled_is_told(it):
    for rows, place, words in (([("a",)], "C7", "no data beside"), ([("a", "")], "B1", "nothing to learn from"), ([("Ada Byron", "Byron"), ("Max Planck", "Planck")], "B1", "all hold something")):
        sheet = it.new(rows).run("fill", place)
        assert words in sheet.told and sheet.steps == [], (words, sheet.told, sheet.steps)
    sheet = last(it).run("next", "B2")
    assert "not filled by example" in sheet.told
    assert "No other sheet" in sheet.run("look", "B3").told and sheet.steps == []


def check_a_document_to_read_only_stays(it):
    last(it).store(it.folder / "read.ods", "calc8")
    sheet = it.open(it.folder / "read.ods", value("ReadOnly", True)).run("fill", "B3")
    assert "reading only" in sheet.told and sheet.texts("B3:B3") == [""]


def check_examples_beside_fillcsv(it):
    key = ["--table=months=months.csv", "--key=months:1"]
    for name in ("sales.csv", "dates.csv"):
        sheet = it.example(name).add("months", it.records("months.csv"))
        for row in range(1, 3 if name == "dates.csv" else 1):
            sheet.cell(f"B{row}").String = ("March", "July")[row - 1]
        sheet.run("look", "B3")
        words = ["--to=Month"] if name == "sales.csv" else ["--new=x", "--no-header", "--example=1=March", "--example=2=July"]
        wanted = [row[1] for row in it.written(name, *words, *key, "--key=months:2")]
        assert sheet.texts(f"B1:B{len(wanted)}") == wanted, name
    filled = [row[1] for row in it.records("sales-filled.csv")]
    assert filled == [row[1] for row in it.written("sales.csv", "--to=Month", *key)] == it.example("sales.csv").add("months", it.records("months.csv")).run("look", "B3").texts("B1:B5")
    sheet = it.example("orders.csv").add("items", it.records("items.csv")).add("prices", it.records("prices.csv"))
    sheet.cell("C1").String, sheet.cell("C2").String = "$2", "$5"
    report = it.records("orders-report.csv")
    last_fill = [row for row in report if row[0] == "row"][-5:]
    assert sheet.run("look", "C3").texts("C1:C5") == [row[2] for row in last_fill]


def check_rules_in_files(it):
    sheet = it.example("people.csv").run("columns", "D3", Columns="A,C").run("next").run("second")
    path = it.folder / "label.rule"
    sheet.run("save", "D3", URL=url(path))
    assert path.read_bytes() == (EXAMPLES / "label.rule").read_bytes() and str(path) in sheet.told
    more = it.example("more-people.csv").run("run", "A1", URL=url(path))
    wanted = it.records("more-people-filled.csv")
    assert wanted == it.written("--rule=label.rule", stdin=(EXAMPLES / "more-people.csv").read_bytes())
    assert more.texts("D1:D6") == [row[3] for row in wanted] and "4 filled by the rule label.rule" in more.told
    assert more.undo().texts("D1:D6") == [""] * 6
    sales = it.example("more-sales.csv").run("run", "A1", URL=url(EXAMPLES / "month.rule"))
    assert "no sheet of this name" in sales.told
    sales.add("months", it.records("months.csv")).run("run", "A1", URL=url(EXAMPLES / "month.rule"))
    assert [list(row) for row in sales.cell("A1:B4").getDataArray()] == it.records("more-sales-filled.csv")
    wrong = it.example("phones.csv").run("run", "A1", URL=url(path))
    assert "does not fit here: no column" in wrong.told


def check_all_words_are_in_both_languages(it):
    english, german = (vars(LANGUAGES[name]) for name in ("en", "de"))
    names = {name for name in english if name.isupper()}
    assert names == {name for name in german if name.isupper()}
    for name in names:
        pairs = [(english[name], german[name])] if isinstance(english[name], str) else [(english[name][key], german[name][key]) for key in english[name].keys() | german[name].keys()]
        for one, other in pairs:
            fields = [sorted(field for _, field, _, _ in string.Formatter().parse(text) if field is not None) for text in (one, other)]
            assert fields[0] == fields[1], (one, other)
            assert one.count("~") == other.count("~"), (one, other)


def check_german_is_spoken(it):
    it.office.set_language("de")
    try:
        sheet = it.example("people.csv").run("fill", "D3")
        assert sheet.told.startswith("Nach Beispiel ausfüllen: 3 ausgefüllt, 2 zu prüfen, 1 leer geblieben. Regel: ") and sheet.buttons[2] == "Nächste prüfen"
    finally:
        it.office.set_language("en-US")
    assert sheet.run("clear", "D3").cell("D5").CellStyle == "Default"


def check_no_module_is_long(it):
    folder = EXAMPLES.parent / "calc"
    for path in [*folder.rglob("*.py"), folder / "build", folder / "test"]:
        assert len(path.read_text().splitlines()) <= 250, path
