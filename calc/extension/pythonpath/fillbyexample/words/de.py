"""The words in German."""

NAME = "Nach Beispiel ausfüllen"
DESCRIPTION = "Füllt eine Spalte nach ein paar Zellen, die Sie selbst ausfüllen, wie die Blitzvorschau, und kennzeichnet, was geraten ist. Wählen Sie eine Zelle der Spalte und drücken Sie Strg+E."

MENU = {
    "fill": "Nach ~Beispiel ausfüllen",
    "look": "Nach Beispiel und ~anderen Tabellen ausfüllen",
    "next": "Nächste zu ~prüfende Zelle",
    "columns": "Ge~lesene Spalten...",
    "save": "Regel s~peichern...",
    "run": "Regel anwen~den...",
}

FILL = "Nach Beispiel ausfüllen"
RUN_RULE = "Regel anwenden"
CLEAR = "Kennzeichen entfernen"
STYLE = "Nach Beispiel: zu prüfen"

FILLED = "{0} ausgefüllt"
TO_CHECK = "{0} zu prüfen"
LEFT_EMPTY = "{0} leer geblieben"
KEPT = "{0} nicht gelernt"
RULE = "Regel: {0}"
ROW = "Zeile {0}"
EITHER = "{0} oder {1}?"
ONLY = "{0}? Keine Regel ergibt etwas anderes."
OR_TYPE = "Oder geben Sie den richtigen Text ein und drücken Sie Strg+E."
RULE_SAVED = "Die Regel ist in {0} gespeichert."
BY_RULE = "{0} nach der Regel {1}."
NONE = "nichts"
QUOTED = "„{0}“"

NEXT = "~Nächste prüfen"
LEAVE_EMPTY = "Leer lassen"
COLUMNS = "~Spalten..."
NO_HEADER = "Zeile {0} ist ~kein Kopf"
HEADER = "Zeile {0} ist ein ~Kopf"
CLEAR_MARKS = "Kennzeichen ~entfernen"

NOTE_HEAD = "Nach Beispiel: "
NOTE = "{0} nach der Regel: {1}\noder {2} nach der Regel: {3}"
NOTE_SHORT = "{0}\noder {1}"

WHY = {
    "select_one": "Wählen Sie eine Zelle der Spalte, die ausgefüllt werden soll.",
    "nothing_beside": "Neben dieser Spalte stehen keine Daten.",
    "no_example": "Es gibt nichts, wovon zu lernen wäre: Füllen Sie eine Zelle dieser Spalte von Hand aus und drücken Sie dann Strg+E.",
    "no_columns": "Es wird keine Spalte gelesen. Wählen Sie eine unter Gelesene Spalten.",
    "nothing_open": "In dieser Spalte ist nichts auszufüllen: Alle Zellen enthalten etwas, sind ausgeblendet oder geschützt.",
    "read_only": "Dieses Dokument ist nur zum Lesen geöffnet.",
    "no_other_sheet": "Keine andere Tabelle kann zum Nachschlagen dienen: Sie braucht höchstens 2000 Zeilen und eine Spalte, die diese unterscheidet.",
    "never_filled": "Diese Spalte wurde nicht nach Beispiel ausgefüllt.",
    "no_doubt": "Es ist keine Zelle mehr zu prüfen.",
    "no_engine": "Diese Erweiterung hat keinen Rechenkern für dieses System ({0}).",
    "changed": "Die Tabelle hat sich inzwischen geändert. Drücken Sie Strg+E noch einmal.",
    "ended": "Abgebrochen. Nichts wurde geändert.",
    "stopped": "{0}",
    "no_rule_to_save": "Es gibt keine Regel zu speichern.",
    "wrong_rule": "Diese Regel passt hier nicht: {0}",
    "no_table": "Diese Regel schlägt in „{0}“ nach. Das Dokument hat keine Tabelle dieses Namens.",
    "file": "{0}",
}

REFUSED = {
    "clash": "von Zeile {0} wird nicht gelernt: Zeile {1} hat die gleichen gelesenen Zellen und einen anderen Text",
    "long": "von Zeile {0} wird nicht gelernt: {1} Zeichen, und ein Beispiel hat höchstens 100",
    "long_row": "von Zeile {0} wird nicht gelernt: {1} Zeichen zu lesen, und bei einem Beispiel sind es höchstens 1000",
    "no_rule": "von Zeile {0} wird nicht gelernt: keine Regel ergibt diesen Text",
    "no_fit": "von Zeile {0} wird nicht gelernt: keine Regel passt auch auf die Beispiele darüber, und es wären mehr als 8 Regeln nötig",
    None: "von Zeile {0} wird nicht gelernt: {1}",
}

LEARNING = "Nach Beispiel ausfüllen (Esc bricht ab)"
COLUMNS_TITLE = "Gelesene Spalten"
COLUMNS_LABEL = "Der Text entsteht aus diesen Spalten (höchstens 8):"
COLUMN = "{0}: {1}"
OK = "~OK"
CANCEL = "Abbrechen"
RULE_FILES = "Regeln von fillcsv"
