"""Checks of what is read and what is left alone."""
import uno
from filling import LAST, NAMES, last


def check_one_example_without_a_header(it):
    assert it.new([("Ada Byron", "Byron"), ("Max Planck", ""), ("Lise Meitner", "")]).run("fill", "B1").texts("B1:B3") == ["Byron", "Planck", "Meitner"]


def check_phones_have_no_header(it):
    sheet = it.example("phones.csv")
    sheet.cell("B1").String, sheet.cell("B2").String = "0101", "030 0102"
    sheet.run("fill", "B3")
    typed = ["--new=x", "--no-header", "--example=1=0101", "--example=2=030 0102"]
    assert sheet.texts("B1:B5") == [row[1] for row in it.written("phones.csv", *typed)]


def check_a_header_alone_is_no_example(it):
    for rows in ([("Name", "Last"), ("Ada Byron", ""), ("Max Planck", "")], [("Name", "Mail", "City", "Label"), ("Ada Byron", "ada@lyra.org", "London", ""), ("Max Planck", "max@quanta.de", "Kiel", "")]):
        sheet = it.new(rows).run("fill", "B3" if len(rows[0]) == 2 else "D3")
        assert "nothing to learn from" in sheet.told and sheet.steps == []
        assert sheet.values("B2:B3") == [rows[1][1], rows[2][1]]


def check_the_header_can_be_said(it):
    sheet = last(it).run("fill", "B3")
    assert "Row 1 Is No Header" in sheet.buttons
    sheet.run("no_header")
    assert "Row 1 Is a Header" in sheet.buttons
    sheet.run("header")
    assert sheet.texts("B1:B6") == LAST and "Row 1 Is No Header" in sheet.buttons


def check_a_filter_says_the_header(it):
    sheet = it.new([("Ada Byron", "Byron"), ("Max Planck", "Planck"), ("Lise Meitner", "")])
    sheet.doc.CurrentController.select(sheet.cell("A1:B3"))
    it.office.command(sheet.doc, ".uno:DataFilterAutoFilter")
    sheet.run("fill", "B3")
    assert sheet.texts("B3:B3") == ["Meitner"] and "Row 1 Is No Header" in sheet.buttons


def check_cells_are_read_as_they_are_shown(it):
    sheet = it.new([("When", "Amount", "Year", "Text"), (40979.0, 12.5, "2012", ""), (36371.0, 7.0, "", ""), (44189.0, 1000.25, "", "")])
    sheet.format("A2:A4", "YYYY-MM-DD")
    sheet.format("B2:B4", "#,##0.00")
    sheet.cell("D2").String = "12.50 on 2012-03-11"
    assert sheet.run("fill", "C3").texts("C1:C4") == ["Year", "2012", "1999", "2020"]
    assert sheet.run("fill", "D3").texts("D1:D4") == ["Text", "12.50 on 2012-03-11", "7.00 on 1999-07-30", "1,000.25 on 2020-12-24"]


def check_merged_cells_count_for_all_their_rows(it):
    sheet = it.new([("City", "Name", "Label"), ("Kiel", "Max Planck", "Planck (Kiel)"), ("", "Ada Byron", ""), ("Graz", "Lise Meitner", ""), ("", "Carl Gauss", "")])
    for cells in ("A2:A3", "A4:A5"):
        sheet.cell(cells).merge(True)
    assert sheet.run("fill", "C3").texts("C1:C5") == ["Label", "Planck (Kiel)", "Byron (Kiel)", "Meitner (Graz)", "Gauss (Graz)"]


def check_merged_cells_of_the_column_stay(it):
    sheet = last(it)
    sheet.cell("B4:B5").merge(True)
    assert sheet.run("fill", "B3").values("B1:B6") == ["Last", "Byron", "Planck", "Meitner", "", "Artin"]


def check_formulas_stay_and_are_not_learned_from(it):
    sheet = last(it)
    sheet.cell("B4").Formula, sheet.cell("B5").Formula = '=""', "=UPPER(A5)"
    sheet.run("fill", "B3")
    assert [sheet.cell(f"B{at}").Formula for at in range(1, 7)] == ["Last", "Byron", "Planck", '=""', "=UPPER(A5)", "Artin"]


def check_errors_are_empty(it):
    sheet = it.new([("Name", "City", "Label"), ("Ada Byron", "London", "Byron, London"), ("Max Planck", "Kiel", ""), ("Lise Meitner", "Graz", "Meitner, Graz"), ("Carl Gauss", "", "")])
    sheet.cell("B5").Formula = "=1/0"
    assert sheet.run("fill", "C3").texts("C1:C5") == ["Label", "Byron, London", "Planck, Kiel", "Meitner, Graz", ""]


def check_a_selection_is_filled_alone(it):
    assert last(it).run("fill", "B3:B4").texts("B1:B6") == ["Last", "Byron", "Planck", "Meitner", "", ""]
    assert last(it).run("fill", "B1:B1048576").texts("B1:B6") == LAST


def check_a_selected_range_is_read_alone(it):
    sheet = it.new([("ID", "Name", "Last"), ("7", "Ada Byron", "Byron"), ("8", "Max Planck", ""), ("9", "Lise Meitner", "")])
    assert sheet.run("fill", "B1:C3").texts("C1:C4") == ["Last", "Byron", "Planck", ""]
    assert '"columns"' not in sheet.told and "Name after the first space" in sheet.told


def check_hidden_and_filtered_rows_stay(it):
    sheet = last(it)
    sheet.sheet.Rows.getByIndex(3).IsVisible = False
    assert sheet.run("fill", "B3").texts("B1:B6") == ["Last", "Byron", "Planck", "", "Gauss", "Artin"]
    assert sheet.undo().texts("B1:B6") == ["Last", "Byron", "", "", "", ""]


def check_protected_cells_stay(it):
    sheet = last(it)
    free = uno.createUnoStruct("com.sun.star.util.CellProtection")
    free.IsLocked = False
    sheet.cell("B3:B4").CellProtection = free
    sheet.sheet.protect("")
    assert sheet.run("fill", "B3").texts("B1:B6") == ["Last", "Byron", "Planck", "Meitner", "", ""]
    sheet = last(it)
    sheet.sheet.protect("")
    sheet.run("fill", "B3")
    assert sheet.texts("B1:B6") == [row[1] for row in NAMES] and "protected" in sheet.told


def check_columns_that_are_not_read_by_default(it):
    rows = [("ID", "Name", "Remark", "Last"), (11.0, "Ada Byron", "", "Byron"), (12.0, "Max Planck", "Planck", ""), (13.0, "Lise Meitner", "", ""), (14.0, "Carl Gauss", "", "")]
    sheet = it.new(rows).run("fill", "D3")
    assert sheet.texts("D1:D5") == ["Last", "Byron", "Planck", "Meitner", "Gauss"]
    read = sheet.doc.DocumentProperties.UserDefinedProperties.FillByExample
    assert '"Sheet1",3,true,[-2],false' in read, read


def check_columns_can_be_chosen(it):
    sheet = it.example("people.csv").run("fill", "D3").run("columns", Columns="A,C")
    wanted = it.records("people-filled.csv")
    assert sheet.texts("D1:D7") == [row[3] for row in wanted]
    assert sheet.marked("D1:D7") == [at for at, row in enumerate(wanted, 1) if "doubt" in row[4]]
    assert sheet.run("fill", "D3").marked("D1:D7") == [5]


def check_the_column_may_stand_anywhere(it):
    sheet = it.new([("Last", "Name"), ("Byron", "Ada Byron"), ("", "Max Planck"), ("", "Lise Meitner")])
    assert sheet.run("fill", "A3").texts("A1:A4") == ["Last", "Byron", "Planck", "Meitner"]


def check_line_ends_and_quotes(it):
    rows = [("Name", "City", "Label"), ("Ada Byron", "London", "Byron (London)")] + [(f"Max Planck{at}", 'Bad\nHom"burg', "") for at in range(9)]
    assert it.new(rows).run("fill", "C3").texts("C3:C11") == [f'Planck{at} (Bad\nHom"burg)' for at in range(9)]
