"""The language in a few lines of Python, slow and plain: values of programs on a row, and their notation. The generators make
the texts of examples by it, so that many examples have a program in common; no answer is compared with it.

Trees are tuples: ("Col", C), ("Select", C, T, K, conditions); ("Const", text), ("Whole", source), ("Sub", source, place,
place); ("CPos", N), ("Pos", tokens, tokens, N). A program is a list of atoms, and tokens are their numbers.
"""
import functools
import unicodedata

NAMES = (
    " Start End Digits Upper Lower Alpha Word Space Hyphen Dot Comma Semicolon Colon Slash Backslash Underscore At Hash "
    "Ampersand LeftParen RightParen DoubleQuote SingleQuote Percent Plus Dollar NonSpace NonDigit NonAlpha"
).split(" ")
START, END, DIGITS, UPPER, LOWER, ALPHA, WORD, SPACE, FIRST_ONE, LAST_ONE, NON_SPACE, NON_DIGIT, NON_ALPHA = 1, 2, 3, 4, 5, 6, 7, 8, 9, 26, 27, 28, 29
ONES = "-.,;:/\\_@#&()\"'%+$"
WHITE = {*"\t\n\x0b\x0c\r \x85\xa0\u1680\u2028\u2029\u202f\u205f\u3000", *map(chr, range(0x2000, 0x200B))}


@functools.lru_cache(maxsize=None)
def is_in(token, c):
    """Whether a character is in the class of a run token."""
    category = unicodedata.category(c)
    letter = category in ("Lu", "Ll", "Lt", "Lm", "Lo")
    digit = category == "Nd"
    return {
        DIGITS: digit,
        UPPER: category == "Lu",
        LOWER: category == "Ll",
        ALPHA: letter,
        WORD: letter or digit,
        SPACE: c in WHITE,
        NON_SPACE: c not in WHITE,
        NON_DIGIT: not digit,
        NON_ALPHA: not letter,
    }[token]


def span(token, text, at):
    """Where the piece ends that a token spans from a position on, or None."""
    if token == START:
        return 0 if at == 0 else None
    if token == END:
        return at if at == len(text) else None
    if FIRST_ONE <= token <= LAST_ONE:
        return at + 1 if text[at : at + 1] == ONES[token - FIRST_ONE] else None
    if at >= len(text) or not is_in(token, text[at]) or (at > 0 and is_in(token, text[at - 1])):
        return None
    return next((to for to in range(at + 1, len(text)) if not is_in(token, text[to])), len(text))


def end_of(tokens, text, at):
    for token in tokens:
        at = span(token, text, at)
        if at is None:
            return None
    return at


@functools.lru_cache(maxsize=1 << 16)
def position(place, text):
    """The position that a place names in a text, or None."""
    if place[0] == "CPos":
        at = place[1] if place[1] >= 0 else len(text) + 1 + place[1]
        return at if 0 <= at <= len(text) else None
    _, left, right, count = place
    ends = {end_of(left, text, at) for at in range(len(text) + 1)}
    found = [at for at in range(len(text) + 1) if at in ends and end_of(right, text, at) is not None]
    at = count - 1 if count > 0 else len(found) + count
    return found[at] if 0 <= at < len(found) else None


class World:
    """A sheet, its inputs and its tables, as values see them."""

    def __init__(self, rows, inputs, output):
        self.rows, self.inputs, self.output, self.tables = rows, inputs, output, []

    def cell(self, row, column):
        return self.rows[row][column - 1]

    def text_of(self, source, row):
        if source[0] == "Col":
            return self.cell(row, source[1])
        _, column, table, key, conditions = source
        table = self.tables[table - 1]
        if key > len(table["keys"]) or column > table["width"]:
            return None
        columns = table["keys"][key - 1]
        cells = [it[1] if it[0] == "Const" else self.atom(it, row) for it in conditions]
        if None in cells or len(cells) != len(columns):
            return None
        return next((it[column - 1] for it in table["rows"] if [it[c - 1] for c in columns] == cells), None)

    def atom(self, atom, row):
        if atom[0] == "Const":
            return atom[1] or None
        text = self.text_of(atom[1], row)
        if atom[0] == "Whole" or text is None:
            return text or None
        a, b = position(atom[2], text), position(atom[3], text)
        return text[a:b] if a is not None and b is not None and a < b else None

    def value(self, program, row):
        texts = [self.atom(it, row) for it in program]
        return None if None in texts else "".join(texts)


def show_tokens(tokens):
    return "[" + " ".join(NAMES[it] for it in tokens) + "]"


def show(tree):
    """The notation of a source, a place or an atom."""
    kind, *parts = tree
    if kind == "Const":
        return "Const('" + parts[0].replace("\\", "\\\\").replace("'", "\\'") + "')"
    if kind == "Pos":
        return f"Pos({show_tokens(parts[0])},{show_tokens(parts[1])},{parts[2]})"
    if kind == "Select":
        parts = [*parts[:3], *parts[3]]
    return kind + "(" + ",".join(str(it) if isinstance(it, int) else show(it) for it in parts) + ")"


def show_program(program):
    return "Concat(" + ",".join(map(show, program)) + ")"
