"""Random texts, programs and files of CSV."""
import random

from language import END, NON_ALPHA, NON_DIGIT, NON_SPACE, ONES, START, show_program

# how long cells are
LENGTHS = {"tiny": 4, "small": 8, "mid": 18, "big": 32}
ALPHABETS = ["ab", "aB1", "aB ", "a1-", "Ab 1", "xY.-", "aé1Б ", 'ab,"', "a'\\", "٣1aA", "ǅaʰ中 ", "a\u00a0b\u2003", "Aa_@#", "k/(+$%&)"]


class Maker:
    """Makes them; all chance is that of the seed. `world` is set by who knows the sheet."""

    def __init__(self, seed, size=None):
        self.random = random.Random(seed)
        self.size = size or self.pick("tiny", "tiny", "small", "small", "small", "mid")
        self.length = LENGTHS[self.size]
        self.alphabet = self.pick(*ALPHABETS)
        self.profile = self.pick(1, 1, 2)
        self.depth = self.pick(0, 1, 1, 2) if self.profile == 1 else self.pick(0, 1, 2, 3)
        self.separators = self.chance(0.2)
        # the tokens of places, once they are asked for
        self.pool = []

    def chance(self, share):
        return self.random.random() < share

    def pick(self, *choices):
        return self.random.choice(choices)

    # texts

    def word(self, most, alphabet=None):
        """A text of some characters, sometimes of none."""
        least = 0 if self.chance(0.15) else 1
        return "".join(self.random.choices(alphabet or self.alphabet, k=self.random.randint(least, most)))

    def cell(self):
        """A text of a few runs."""
        if self.size == "tiny" or self.chance(0.4):
            return self.word(self.length)
        text = ""
        while len(text) < self.length and (not text or self.chance(0.75)):
            text += self.pick(
                str(self.random.randint(0, 999)),
                self.pick(*"ABC") + self.word(4, "abcde"),
                self.pick(" ", "-", ". ", "@", ", "),
                self.word(4, "abc"),
                self.word(3),
            )
        return text[: self.length]

    # programs

    def tokens(self, left):
        if not self.pool:
            ones = [9 + at for at, c in enumerate(ONES) if c in self.alphabet] or [9]
            self.pool = [*range(1, 9), *ones, *([NON_SPACE, NON_DIGIT, NON_ALPHA] if self.profile == 2 else [])]
        while True:
            made = tuple(self.random.choices(self.pool, k=self.pick(0, 0, 1, 1, 1, 2, 3)))
            if left and END not in made and START not in made[1:]:
                return made
            if not left and START not in made and END not in made[:-1]:
                return made

    def place(self):
        if self.chance(0.3):
            return ("CPos", self.pick(0, -1, 1, 2, -2, -3))
        while True:
            left, right = self.tokens(True), self.tokens(False)
            if left or right:
                return ("Pos", left, right, self.pick(1, 1, 1, -1, -1, 2, -2, 3))

    def source(self, depth):
        tables = enumerate(self.world.tables, 1)
        keyed = [(number, it, key) for number, it in tables for key in range(1, len(it["keys"]) + 1) if it["rows"]]
        column = ("Col", self.pick(*self.world.inputs))
        if depth == 0 or not keyed or self.chance(0.35 if self.depth < 2 else 0.15):
            return column
        number, table, key = self.pick(*keyed)
        columns = table["keys"][key - 1]
        others = [it for it in range(1, table["width"] + 1) if it not in columns]
        row = self.pick(*table["rows"])
        for _ in range(20 if others else 0):
            conditions = [("Const", row[it - 1]) if self.chance(0.3) else self.part(depth - 1) for it in columns]
            if any(it[0] != "Const" for it in conditions):
                return ("Select", self.pick(*others), number, key, conditions)
        return column

    def part(self, depth):
        """An atom that reads a source."""
        source = self.source(depth)
        return ("Whole", source) if self.chance(0.45) else ("Sub", source, self.place(), self.place())

    def program(self):
        atoms = []
        for _ in range(self.pick(1, 1, 1, 2, 2, 3)):
            if not self.chance(0.2):
                atoms.append(self.part(self.depth))
            elif self.separators or self.chance(0.5):
                atoms.append(("Const", self.pick(" ", "-", ", ", "/")))
            else:
                atoms.append(("Const", self.word(2) or "x"))
        return atoms

    def good_program(self):
        """Of some programs one with values on many rows, and with lookups where there are tables."""
        best, most = None, -1
        looks_up = self.world.tables and self.chance(0.75)
        deep = looks_up and self.depth > 1 and self.chance(0.7)
        for _ in range(60 if deep else 16):
            program = self.program()
            if looks_up and "Select" not in show_program(program) and self.chance(0.8):
                program = self.program()
            values = [self.world.value(program, row) for row in range(len(self.world.rows))]
            good = sum(it is not None and len(it) <= 40 for it in values) + (len(set(values)) > 1) / 2
            if deep and show_program(program).count("Select") > 1 and good >= 1:
                good += 2
            if good > most:
                best, most = program, good
        return best

    # files

    def csv(self, rows):
        """A file of CSV, with one of the ends of lines, quotes here and there, and sometimes empty lines."""
        eol = self.pick("\n", "\n", "\n", "\r\n", "\r")
        text = ""
        for row in rows:
            fields = ['"' + it.replace('"', '""') + '"' if set(it) & set(',"\r\n') or self.chance(0.1) else it for it in row]
            text += (",".join(fields) or '""') + eol
            if self.chance(0.03):
                text += eol
        if self.chance(0.2):
            text = text[: -len(eol)]
        return (b"\xef\xbb\xbf" if self.chance(0.05) else b"") + text.encode()
