"""What the engine tells of a filled sheet: refusals, the rule in words, both answers of cells in doubt.

This module reads the lines that the programs write for people. It goes when the engine hands out its report as data, and
nothing else in the extension reads such lines. Rows here count as in the lines: the first record is row 1.
"""
import re

ESCAPES = {"n": "\n", "r": "\r", "t": "\t"}
ANSWER = r'("(?:[^"\\]|\\.)*"|none)'
DOUBT = re.compile(rf"row (\d+): {ANSWER}, or {ANSWER}(?: by: (.*))?$", re.S)
REFUSED = re.compile(r"row (\d+): not learned from: (.*)$", re.S)
# why a text is not learned from: the name of the reason in the words of the extension, and its numbers
REASONS = {
    "clash": re.compile(r"row (\d+) reads the same cells and has another text$"),
    "long": re.compile(r"(\d+) characters, and an example has 100 at most$"),
    "long_row": re.compile(r"(\d+) characters to read, and an example has 1000 at most$"),
    "no_rule": re.compile(r"no rule gives this text$"),
    "no_fit": re.compile(r"no rule fits it beside the examples above, and more than 8 rules would be needed$"),
}


class Doubt:
    """Both answers of a cell in doubt, None where one is none, and the rule of the other answer in words, where it is told."""

    def __init__(self, first, other, words):
        self.first, self.other, self.words = first, other, words


class Refusal:
    """Why a given text is not learned from: a reason with its number, or None and the program's own line."""

    def __init__(self, reason, number, line):
        self.reason, self.number, self.line = reason, number, line


class Told:
    """All that the lines of a run tell."""

    def __init__(self, err):
        self.rule, self.doubts, self.refusals = [], {}, {}
        for line in err.decode("utf-8", "replace").split("\n"):
            line = line.partition(": ")[2]
            doubt, refused = DOUBT.match(line), REFUSED.match(line)
            if line.startswith("rule: "):
                self.rule.append(line[6:])
            elif doubt and int(doubt[1]) not in self.doubts:
                self.doubts[int(doubt[1])] = Doubt(_answer(doubt[2]), _answer(doubt[3]), doubt[4])
            elif refused:
                self.refusals[int(refused[1])] = _refusal(refused[2])


def _answer(quoted):
    return None if quoted == "none" else re.sub(r"\\(.)", lambda it: ESCAPES.get(it[1], it[1]), quoted[1:-1], flags=re.S)


def _refusal(line):
    for reason, form in REASONS.items():
        found = form.match(line)
        if found:
            return Refusal(reason, int(found[1]) if form.groups else None, line)
    return Refusal(None, None, line)


def has_letters(rule):
    """Whether a line of the rule in words has a constant with a letter."""
    constants = re.findall(r'"((?:[^"\\]|\\.)*)"', rule.rpartition(": ")[2])
    return any(re.search(r"[^\W\d_]", it) for it in constants)
