"""What is told of a filled column: counts, the rule, both answers of a cell in doubt; in the bar and in notes."""
from .bar import LONGEST_RULE, Bar, cut, label_of

_asked = {}  # by document: what its bar speaks of


class Asked:
    """The cell that a bar speaks of, what is shown there, and both answers where it asks for one of them."""

    def __init__(self, region, record, answers=None):
        self.sheet, self.column, self.row = region.sheet.getName(), region.column, region.top + record
        self.shown, self.answers = region.place(record).getString(), answers

    def cell(self, doc):
        """The cell; None where it is gone or shows something else."""
        if not doc.Sheets.hasByName(self.sheet):
            return None
        cell = doc.Sheets.getByName(self.sheet).getCellByPosition(self.column, self.row)
        return cell if cell.getString() == self.shown else None


def asked(doc, bar):
    """What the bar of a document speaks of, if it is there."""
    return _asked.get(doc.RuntimeUID) if bar.is_shown() else None


def forget(uid):
    """Forgets a document that is closed."""
    _asked.pop(uid, None)


class Telling:
    def __init__(self, doc, frame, words):
        self.doc, self.words, self.bar = doc, words, Bar(frame)

    def quoted(self, text):
        return self.words.NONE if text is None else self.words.QUOTED.format(text)

    def refuse(self, name, *parts, buttons=()):
        self.bar.show(self.words.FILL, self.words.WHY[name].format(*parts), buttons, is_warning=True)

    def note(self, task, record):
        """The note of a cell in doubt: both answers, and their rules where they are told."""
        say, doubt = self.words, task.filled.doubts[record - task.header]
        first, other = self.quoted(doubt.first), self.quoted(doubt.other)
        if doubt.words and len(task.filled.rule) == 1:
            return say.NOTE_HEAD + say.NOTE.format(first, task.filled.rule[0], other, doubt.words)
        return say.NOTE_HEAD + say.NOTE_SHORT.format(first, other)

    def tell(self, task, written):
        """Tells of a fill: the counts, a text that is not learned from, the rule, and both answers of the first cell in doubt."""
        say, filled, doubtful = self.words, task.filled, task.doubtful()
        empty = sum(1 for it in written.values() if not it)
        counts = [say.FILLED.format(len(written) - empty)]
        counts += [say.TO_CHECK.format(len(doubtful))] if doubtful else []
        counts += [say.LEFT_EMPTY.format(empty)] if empty else []
        text = [", ".join(counts) + "."]
        if filled.refusals:
            text.append(self.refusal(task))
        if filled.rule:
            text.append(say.RULE.format(cut("; ".join(filled.rule), LONGEST_RULE)) + ".")
        told = next((it for it in doubtful if it - task.header in filled.doubts), None)
        _asked[self.doc.RuntimeUID] = Asked(task.region, told or 0)
        buttons = []
        if told is not None:
            doubt = filled.doubts[told - task.header]
            text.append(say.ROW.format(task.row(told)) + ": " + say.EITHER.format(self.quoted(doubt.first), self.quoted(doubt.other)))
            buttons += self.answers(task, told, doubt.first, doubt.other)
        buttons += [(say.NEXT, "next")] if doubtful else []
        buttons += [(say.COLUMNS, "columns")] + self.header(task) + ([(say.CLEAR_MARKS, "clear")] if doubtful else [])
        self.bar.show(say.FILL, " ".join(text), buttons, is_warning=bool(filled.refusals))

    def refusal(self, task):
        """How many texts are not learned from, and why the first one is not."""
        say, (row, it) = self.words, next(iter(task.filled.refusals.items()))
        detail = it.line if it.reason is None else task.row(it.number + task.header) if it.reason == "clash" else it.number
        why = say.REFUSED[it.reason].format(task.row(row + task.header), detail)
        return f"{say.KEPT.format(len(task.filled.refusals))}: {why}."

    def header(self, task):
        """The button that says what the first row is."""
        if task.column.header:
            return [(self.words.NO_HEADER.format(task.row(0)), "no_header")]
        return [(self.words.HEADER.format(task.row(0)), "header")] if 0 in task.given else []

    def answers(self, task, record, *answers):
        """The buttons with the answers of a cell."""
        _asked[self.doc.RuntimeUID] = Asked(task.region, record, answers)
        labels = [self.words.LEAVE_EMPTY if it is None else label_of(it) for it in answers]
        return [(f"~{at}: {label}", name) for at, label, name in zip((1, 2), labels, ("first", "second"))]

    def ask(self, task, record, first, doubt):
        """Asks for the right one of both answers."""
        say = self.words
        if doubt:
            text, buttons = say.EITHER.format(self.quoted(first), self.quoted(doubt.other)), self.answers(task, record, first, doubt.other)
        else:
            text, buttons = say.ONLY.format(self.quoted(first)), self.answers(task, record, first)
        self.bar.show(say.ROW.format(task.row(record)), f"{text} {say.OR_TYPE}", [*buttons, (say.NEXT, "next"), (say.CLEAR_MARKS, "clear")])
