"""The words in English."""

NAME = "Fill by Example"
DESCRIPTION = "Fills a column from a few cells that you fill yourself, as Flash Fill does, and marks what is a guess. Select a cell of the column and press Ctrl+E."

# the menu; ~ stands before the letter of the key, which no other entry of LibreOffice's menu has, or only a grey one
MENU = {
    "fill": "Fill ~by Example",
    "look": "Fill by Example ~with Other Sheets",
    "next": "Next Cell to Chec~k",
    "columns": "Colu~mns to Read...",
    "save": "Sav~e Rule...",
    "run": "Run R~ule...",
}

# steps of undo, and the cell style of doubt
FILL = "Fill by Example"
RUN_RULE = "Run Rule"
CLEAR = "Clear Marks"
STYLE = "Fill by Example: to check"

# the bar
FILLED = "{0:,} filled"
TO_CHECK = "{0:,} to check"
LEFT_EMPTY = "{0:,} left empty"
KEPT = "{0:,} not learned from"
RULE = "Rule: {0}"
ROW = "Row {0}"
EITHER = "{0} or {1}?"
ONLY = "{0}? No rule gives another answer."
OR_TYPE = "Or type the right text and press Ctrl+E."
RULE_SAVED = "The rule is saved in {0}."
BY_RULE = "{0} by the rule {1}."
NONE = "none"
QUOTED = "“{0}”"

# its buttons
NEXT = "~Next to Check"
LEAVE_EMPTY = "Leave Empty"
COLUMNS = "C~olumns..."
NO_HEADER = "Row {0} Is No ~Header"
HEADER = "Row {0} Is a ~Header"
CLEAR_MARKS = "C~lear Marks"

# notes
NOTE_HEAD = "Fill by Example: "
NOTE = "{0} by the rule: {1}\nor {2} by the rule: {3}"
NOTE_SHORT = "{0}\nor {1}"

# why there is nothing to fill
WHY = {
    "select_one": "Select one cell of the column to fill.",
    "nothing_beside": "There is no data beside this column.",
    "no_example": "There is nothing to learn from: fill one cell of this column by hand, then press Ctrl+E.",
    "no_columns": "No column is read. Choose one by Columns to Read.",
    "nothing_open": "No cell of this column can be filled: all hold something, or are hidden or protected.",
    "read_only": "This document was opened for reading only.",
    "no_other_sheet": "No other sheet can serve as a table: it needs up to 2,000 rows and a column that tells these apart.",
    "never_filled": "This column was not filled by example.",
    "no_doubt": "No cell is left to check.",
    "no_engine": "This extension has no engine for this system ({0}).",
    "changed": "The sheet changed meanwhile. Press Ctrl+E again.",
    "ended": "Ended. Nothing was changed.",
    "stopped": "{0}",
    "no_rule_to_save": "There is no rule to save.",
    "wrong_rule": "This rule does not fit here: {0}",
    "no_table": "This rule looks up in “{0}”. The document has no sheet of this name.",
    "file": "{0}",
}

# why a given text is not learned from; {0} is the row, {1} a number of the reason
REFUSED = {
    "clash": "row {0} is not learned from: row {1} reads the same cells and has another text",
    "long": "row {0} is not learned from: {1} characters, and an example has 100 at most",
    "long_row": "row {0} is not learned from: {1} characters to read, and an example has 1000 at most",
    "no_rule": "row {0} is not learned from: no rule gives this text",
    "no_fit": "row {0} is not learned from: no rule fits it beside the examples above, and more than 8 rules would be needed",
    None: "row {0} is not learned from: {1}",
}

# dialogs, and the bar of progress
LEARNING = "Fill by Example (Esc ends it)"
COLUMNS_TITLE = "Columns to Read"
COLUMNS_LABEL = "The text is made from these columns (up to 8):"
COLUMN = "{0}: {1}"
OK = "~OK"
CANCEL = "Cancel"
RULE_FILES = "Rules of fillcsv"
