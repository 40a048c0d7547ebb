"""What a command works on: the region, what is remembered of its column, and the question to the engine."""
from . import columns, learning, memory
from .header import has_header
from .region import Refused, region_of
from .tables import tables_of

_last = {}  # the last question of each document, with its answer


class Task:
    """`own` are the records of guesses that were filled earlier; `given` the texts that are learned from, by record."""

    def __init__(self, doc, controller, waiting, look_up=False):
        self.doc, self.waiting, self.region = doc, waiting, region_of(doc, controller)
        region = self.region
        name = region.sheet.getName()
        self.column = memory.find(doc, region) or memory.Column(name, region.column)
        self.column.tables = self.column.tables or look_up
        self.held, self._open, self._doubtful = region.held(), None, None
        self._sort_cells()
        if self.column.header is None:
            self.column.header = has_header(region, self.given, waiting.wait, waiting.tick)
        self.header = int(self.column.header)
        if self.header:
            self.given.pop(0, None)
        self.tables = tables_of(doc, region.sheet, waiting.tick) if self.column.tables else None
        if look_up and not self.tables:
            raise Refused("no_other_sheet")

    def _sort_cells(self):
        """Tells given texts from guesses. A cell that a person left empty by a button is given, too."""
        region, column = self.region, self.column
        formulas, covered = region.formulas(), region.covered()
        self.own, self.given, self.confirmed = set(), {}, set()
        knows = bool(column.cells or column.confirmed) and memory.reads_inside(column, region)
        for record, text in enumerate(region.texts(region.to, self.waiting.tick)):
            if record in formulas or record in covered:
                continue
            beside = memory.beside(column, region, record) if knows else ()
            if text and knows and column.is_guess(region.top + record, text, beside):
                self.own.add(record)
                continue
            is_confirmed = knows and column.is_confirmed(text, beside)
            if text or is_confirmed:
                self.given[record] = text
            if is_confirmed:
                self.confirmed.add(record)

    def question(self, read):
        """The question about these columns. Its rows count from 0 below the header."""
        region, header = self.region, self.header
        if not read:
            raise Refused("no_columns")
        texts = [region.texts(it, self.waiting.tick) for it in read]
        names = [it[0] for it in texts] + [region.texts(region.to)[0]] if header else None
        rows = list(zip(*texts))[header:]
        given = {record - header: text for record, text in self.given.items()}
        return learning.Question(names, rows, given, self.tables)

    def usual_columns(self):
        """The columns that a person has chosen, else those that are read by default."""
        if self.column.chosen and memory.reads_inside(self.column, self.region):
            return [self.region.to + it for it in self.column.read]
        first = {record: text for record, text in sorted(self.given.items())[:learning.MOST_EXAMPLES]}
        tick = self.waiting.tick
        return columns.usual(self.region, self.header, first, bool(self.tables), tick) or columns.all_held(self.region, self.header, tick)

    def learn(self):
        """Learns the column. Where a given text is not learned from by the usual columns, all are tried."""
        if not self.given:
            raise Refused("no_example")
        self._learn(self.usual_columns())
        if not self.filled.refusals or self.column.chosen:
            return
        kept, more = (self.read, self.asked, self.filled), columns.all_held(self.region, self.header, self.waiting.tick)
        if more != self.read:
            self._learn(more)
            if len(self.filled.refusals) >= len(kept[2].refusals):
                self.read, self.asked, self.filled = kept

    def _learn(self, read):
        question, uid = self.question(read), self.doc.RuntimeUID
        last = _last.get(uid, {}).get(tuple(read))
        if not last or last[0] != question:
            last = question, learning.fill(question, self.waiting.wait, explains=True)
            _last[uid] = {**_last.get(uid, {}), tuple(read): last} if len(_last.get(uid, {})) < 4 else {tuple(read): last}
        self.read, (self.asked, self.filled) = read, last

    def explain(self, record):
        """The first answer of a record, and its doubt, None where all rules agree."""
        return learning.explain(self.asked, record - self.header, self.waiting.wait)

    def examples(self):
        """The records with a given text."""
        return [record for record, text in self.given.items() if text]

    def answer(self, record):
        """What the rule gives on a record, as text."""
        return self.filled.texts[record - self.header]

    def open_records(self):
        """The records that may be written: they hold nothing, or a guess."""
        if self._open is None:
            places = self.region.open_places()
            self._open = {it for it in places if it >= self.header and it not in self.given and (it not in self.held or it in self.own)}
        return self._open

    def doubtful(self):
        """The records in doubt, in order."""
        if self._doubtful is None:
            self._doubtful = sorted(it for it in self.open_records() if self.filled.is_doubtful(it - self.header))
        return self._doubtful

    def row(self, record):
        """The number of a record's row in the sheet, as a person sees it."""
        return self.region.top + record + 1

    def remember(self, written):
        """Keeps in the document what was written, by record, beside the guesses that stay."""
        region, column = self.region, self.column
        old = {it: region.texts(region.to)[it] for it in self.own if it not in self.open_records()}
        column.read = [it - region.to for it in self.read]
        texts = [region.texts(it) for it in self.read]
        cells = []
        for record, text in sorted({**old, **written}.items()):
            if text:
                cells.append((region.top + record, memory.text_sum(text), memory.content_sum(text, [it[record] for it in texts])))
        column.set_cells(cells)
        column.confirmed = {memory.content_sum(self.given[record], [it[record] for it in texts]) for record in self.confirmed}
        memory.keep(self.doc, column)


def forget(uid):
    """Forgets a document that is closed."""
    _last.pop(uid, None)
