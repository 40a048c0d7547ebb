"""Checks of filling: what is written, that one step undoes it, the marks, and what is learned from."""
from bench import STYLE

PEOPLE = ["Label", "Byron (London)", "Planck (Kiel)", "Meitner (Graz)", "A Noether (Erlangen)", "Gauss (Kassel)", ""]
GIVEN = ["Label", "Byron (London)", "", "Meitner (Graz)", "", "", ""]
NAMES = [("Name", "Last"), ("Ada Byron", "Byron"), ("Max Planck", ""), ("Lise Meitner", ""), ("Carl Gauss", ""), ("Emil Artin", "")]
LAST = ["Last", "Byron", "Planck", "Meitner", "Gauss", "Artin"]


def last(it):
    return it.new(NAMES)


def check_people_are_filled_and_one_step_undoes_it(it):
    sheet = it.example("people.csv").run("fill", "D3")
    assert sheet.texts("D1:D7") == PEOPLE == [row[3] for row in it.written("people.csv", "--to=Label")]
    assert sheet.marked("D1:D7") == [5, 6] and sheet.steps == ["Fill by Example"] and sheet.has_bar
    sheet.undo()
    assert sheet.texts("D1:D7") == GIVEN and sheet.marked("D1:D7") == [] and sheet.notes() == {} and not sheet.has_bar
    sheet.redo()
    assert sheet.texts("D1:D7") == PEOPLE and sheet.marked("D1:D7") == [5, 6]


def check_long_runs_are_undone(it):
    rows = [("Name", "Last"), ("Ada Byron", "Byron")] + [(f"Max Planck{at}", "") for at in range(300)]
    sheet = it.new(rows)
    sheet.cell("B100").CellBackColor = 0x00FF00
    sheet.cell("B200").CharWeight = 150
    sheet.run("fill", "B3")
    assert sheet.texts("B2:B302") == ["Byron"] + [f"Planck{at}" for at in range(300)]
    assert sheet.cell("B100").CellBackColor == 0x00FF00 and sheet.cell("B200").CharWeight == 150 and sheet.cell("B101").CellBackColor != 0x00FF00
    sheet.undo()
    assert sheet.texts("B2:B302") == ["Byron"] + [""] * 300
    sheet.redo()
    assert sheet.texts("B302:B302") == ["Planck299"]


def check_the_second_answer_is_taken(it):
    sheet = it.example("people.csv").run("fill", "D3").run("next")
    assert sheet.doc.CurrentSelection.AbsoluteName.endswith("$D$5")
    sheet.run("second")
    assert sheet.texts("D1:D7") == [*PEOPLE[:4], "Noether (Erlangen)", *PEOPLE[5:]] and sheet.marked("D1:D7") == []
    sheet.undo()
    assert sheet.texts("D1:D7") == PEOPLE and sheet.marked("D1:D7") == [5, 6] and not sheet.has_bar
    sheet.run("fill", "D3")  # what was taken is forgotten with its step
    assert sheet.texts("D1:D7") == PEOPLE and sheet.marked("D1:D7") == [5, 6]


def check_the_first_answer_is_taken(it):
    sheet = it.example("people.csv").run("fill", "D3").run("next").run("first")
    assert sheet.texts("D1:D7") == PEOPLE
    again = it.written("people.csv", "--to=Label", "--example=5=A Noether (Erlangen)", "--state")
    assert sheet.marked("D1:D7") == [at for at, row in enumerate(again, 1) if "doubt" in row[4]]
    sheet.run("fill", "D3")
    assert 5 not in sheet.marked("D1:D7")


def check_an_empty_answer_is_taken(it):
    sheet = it.new([("555-0101", "0101"), ("(030) 555-0102", "030 0102"), ("555-0103", ""), ("(089) 555-0104", ""), ("none", "")]).run("fill", "B3")
    assert sheet.texts("B1:B5") == ["0101", "030 0102", "0103", "089 0104", ""] and 5 in sheet.marked("B1:B5")
    sheet.run("next", "B4").run("first")
    assert sheet.doc.CurrentSelection.AbsoluteName.endswith("$B$3") and 5 not in sheet.marked("B1:B5")
    assert 5 not in sheet.run("fill", "B3").marked("B1:B5")


def check_a_correction_is_learned_from(it):
    sheet = it.example("people.csv").run("fill", "D3")
    sheet.cell("D5").String = "Noether (Erlangen)"
    sheet.run("fill", "D5")
    assert sheet.texts("D1:D7") == [*PEOPLE[:4], "Noether (Erlangen)", *PEOPLE[5:]] and sheet.marked("D1:D7") == []


def check_guesses_are_not_learned_from(it):
    for name, kind in (("ods", "calc8"), ("xlsx", "Calc MS Excel 2007 XML")):
        it.example("people.csv").run("fill", "D3").store(it.folder / f"people.{name}", kind)
        sheet = it.open(it.folder / f"people.{name}")
        assert sheet.texts("D1:D7") == PEOPLE
        sheet.cell("D5").String = "Noether (Erlangen)"
        sheet.run("fill", "D5")
        assert sheet.texts("D1:D7") == [*PEOPLE[:4], "Noether (Erlangen)", *PEOPLE[5:]] and sheet.marked("D1:D7") == [], name


def check_guesses_are_known_after_rows_and_columns_move(it):
    sheet = last(it).run("fill", "B3")
    assert sheet.marked("B1:B6") == [3, 4, 5, 6]
    sheet.sheet.Rows.insertByIndex(4, 1)
    sheet.cell("A5").String = "Niels Bohr"
    sheet.sheet.Columns.insertByIndex(0, 1)
    sheet.run("fill", "C5")
    assert sheet.texts("C1:C7") == [*LAST[:4], "Bohr", *LAST[4:]] and sheet.marked("C1:C7") == [3, 4, 5, 6, 7]


def check_a_corrected_source_is_read_again(it):
    sheet = last(it).run("fill", "B3")
    sheet.cell("A3").String = "Max Plank"
    assert sheet.run("fill", "B3").texts("B1:B6") == [*LAST[:2], "Plank", *LAST[3:]]


def check_undone_guesses_can_be_typed(it):
    sheet = last(it).run("fill", "B3").undo()
    sheet.cell("B2").String = ""
    sheet.cell("B3").String = "Planck"
    assert sheet.run("fill", "B4").texts("B1:B6") == LAST


def check_notes_and_marks(it):
    sheet = it.example("people.csv")
    sheet.cell("D6").CellBackColor = 0xAACCFF
    sheet.sheet.Annotations.insertNew(sheet.cell("D3").CellAddress, "mine")
    sheet.run("fill", "D3")
    notes = sheet.notes()
    assert notes[3] == "mine" and sheet.texts("D3:D3") == ["Planck (Kiel)"]
    assert "“A Noether (Erlangen)”" in notes[5] and "“Noether (Erlangen)”" in notes[5] and "after the first space" in notes[5], notes
    assert sheet.marked("D1:D7") == [5] and sheet.cell("D6").CellBackColor == 0xAACCFF
    style = sheet.doc.StyleFamilies.getByName("CellStyles").getByName(STYLE)
    style.CellBackColor = 0xFF0000
    assert sheet.cell("D5").CellBackColor == 0xFF0000
    sheet.sheet.Annotations.removeByIndex([at for at in range(sheet.sheet.Annotations.Count) if sheet.sheet.Annotations.getByIndex(at).Position.Row == 5][0])
    sheet.sheet.Annotations.insertNew(sheet.cell("D6").CellAddress, notes[6] + " mine too")
    sheet.run("clear", "D3")
    assert sheet.marked("D1:D7") == [] and sheet.notes() == {3: "mine", 6: notes[6] + " mine too"} and not sheet.has_bar
    assert sheet.texts("D1:D7") == PEOPLE


def check_styles_of_the_person_come_back(it):
    sheet = it.example("people.csv")
    style = sheet.doc.createInstance("com.sun.star.style.CellStyle")
    sheet.doc.StyleFamilies.getByName("CellStyles").insertByName("mine", style)
    style.CharWeight = 150
    sheet.cell("D2:D7").CellStyle = "mine"
    sheet.run("fill", "D3")
    assert sheet.marked("D1:D7") == [5, 6] and sheet.cell("D5").CharWeight == 150
    sheet.run("clear", "D3")
    assert sheet.cell("D5").CellStyle == "mine"


def check_numbers_where_the_examples_are(it):
    sheet = it.new([("Code", "N"), ("a-12", 12.0), ("b-7", ""), ("c-300", ""), ("d-4", ""), ("e-5", "")]).run("fill", "B3")
    assert sheet.values("B1:B6") == ["N", 12.0, 7.0, 300.0, 4.0, 5.0]
    sheet.run("fill", "B3")
    assert "learned from" not in sheet.told
    sheet.undo().undo()
    assert sheet.values("B1:B6") == ["N", 12.0, "", "", "", ""]


def check_dates_where_the_examples_are(it):
    sheet = it.new([("Text", "Day"), ("on 2012-03-11", 40979.0), ("on 1999-07-30", ""), ("on 2020-12-24", "")])
    sheet.format("B2", "YYYY-MM-DD")
    sheet.run("fill", "B3")
    assert sheet.values("B2:B4") == [40979.0, 36371.0, 44189.0] and sheet.texts("B3:B3") == ["1999-07-30"]


def check_texts_stay_texts(it):
    sheet = it.new([("Name", "F"), ("A1+1", ""), ("A2+2", ""), ("A3+3", ""), ("A4+4", "")])
    sheet.cell("B2").String = "=A1+1"
    sheet.run("fill", "B3")
    assert [(sheet.cell(f"B{at}").Type.value, sheet.cell(f"B{at}").String) for at in (3, 5)] == [("TEXT", "=A2+2"), ("TEXT", "=A4+4")]
    assert it.new([("Phone", "Last"), ("555-0101", "0101"), ("555-0042", "")]).run("fill", "B3").texts("B2:B3") == ["0101", "0042"]
