"""The order of programs by their notation: by cost, and among equal costs atom by atom."""
from language import NAMES, WORD, is_in

MORE = "Equals Less Greater LeftBracket RightBracket LeftBrace RightBrace Bar Newline".split()
TOKENS = {name: number for number, name in enumerate([*NAMES, *MORE])}
RUNS = {"Digits", "Upper", "Lower", "Alpha", "Word", "NonDigit", "NonAlpha"}


class Reading:
    """A notation that is read, from the left to the right, with the prices of a profile."""

    def __init__(self, text, profile):
        self.text, self.at, self.third = text, 0, profile == 3

    def take(self, word):
        """Whether this word comes next; if so, it is passed."""
        if self.text.startswith(word, self.at):
            self.at += len(word)
            return True
        return False

    def number(self):
        begin = self.at
        while self.text[self.at] in "-0123456789":
            self.at += 1
        return int(self.text[begin : self.at])

    def list_of(self, read):
        """What stands up to the closing parenthesis, with commas between."""
        items = []
        while not self.take(")"):
            self.take(",")
            items.append(read())
        return items

    def constant(self):
        text = ""
        self.take("'")
        while not self.take("'"):
            self.take("\\")
            text += self.text[self.at]
            self.at += 1
        self.take(")")
        return text

    def tokens(self):
        """The cost of a sequence, and its place in the order."""
        self.take("[")
        end = self.text.index("]", self.at)
        names = self.text[self.at : end].split()
        self.at = end + 1
        small = 1 if self.third else 2
        price = lambda it: 2 if it in ("Start", "End") else (4 if self.third else 2) if it in RUNS else small
        return sum(map(price, names)), (len(names), [TOKENS[it] for it in names])

    def place(self):
        if self.take("CPos("):
            count = self.number()
            self.take(")")
            return 1 if count in (0, -1) else 10, (0, abs(count), count < 0)
        self.take("Pos(")
        left_cost, left = self.tokens()
        self.take(",")
        right_cost, right = self.tokens()
        self.take(",")
        count = self.number()
        self.take(")")
        cost = 2 + left_cost + right_cost + 2 * (abs(count) - 1) + (2 if self.third and count < 0 else 0)
        return cost, (1, left, right, abs(count), count < 0)

    def source(self):
        if self.take("Col("):
            column = self.number()
            self.take(")")
            return 0, (0, column)
        self.take("Select(")
        numbers = []
        for _ in range(3):
            numbers.append(self.number())
            self.take(",")
        conditions = self.list_of(lambda: self.atom(condition=True))
        return 8 + sum(cost for cost, _ in conditions), (1, numbers, [it for _, it in conditions])

    def atom(self, condition=False):
        if self.take("Const("):
            text = self.constant()
            if condition:
                return 40 if self.third else 15, (0, text)
            letter = 40 if self.third else 12
            return 10 + sum(letter if is_in(WORD, c) else 1 for c in text), (0, text)
        more = 2 if condition else 0
        if self.take("Whole("):
            cost, source = self.source()
            self.take(")")
            return more + 2 + cost, (1, source)
        self.take("Sub(")
        cost, source = self.source()
        self.take(",")
        begin_cost, begin = self.place()
        self.take(",")
        end_cost, end = self.place()
        self.take(")")
        return more + 6 + cost + begin_cost + end_cost, (2, source, begin, end)


def order_of(program, profile):
    """What programs are compared by: of two the one with the smaller key comes first."""
    reading = Reading(program, profile)
    reading.take("Concat(")
    atoms = reading.list_of(reading.atom)
    return sum(5 + cost for cost, _ in atoms), [it for _, it in atoms]
