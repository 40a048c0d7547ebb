"""A column learned from its examples: questions to the engine and its answers, a long sheet in parts beside each other."""
import concurrent.futures
import csv
import gc
import io
import os
import threading

from . import engine
from .told import Told

GIVEN, DOUBT, NONE, NONE_DOUBT = "given", "doubt", "none", "none doubt"
MOST_READ = 8
EASY = 200  # characters of a row; of longer ones the engine may need seconds to explain a doubt
MOST_EXAMPLES = 64
MOST_TABLES, MOST_KEYS, MOST_TABLE_ROWS = 8, 4, 2000
# A long sheet is asked about in parts of so many rows, each with all given ones: the answer of a row follows from the
# examples and that row alone. With more given rows than MOST_GIVEN the parts would be long themselves.
PART, MOST_GIVEN = 8000, 500
STACK = 64 << 20  # the engine needs more stack than a thread has on some systems


class Question:
    """What the engine is asked. `names` are those of the columns to read and of the one to fill, last, or None without a
    header; `rows` have the texts to read; `given` has the texts that stand in the column, by row."""

    def __init__(self, names, rows, given, tables=None):
        self.names, self.rows, self.given, self.tables = names, rows, given, tables

    def __eq__(self, other):
        return (self.names, self.given, self.tables, self.rows) == (other.names, other.given, other.tables, other.rows)

    @property
    def first(self):
        """The number of the first row in the engine's lines."""
        return 1 if self.names is None else 2

    def part(self, kept):
        """The same question about these rows alone."""
        given = {at: self.given[row] for at, row in enumerate(kept) if row in self.given}
        return Question(self.names, [self.rows[it] for it in kept], given, self.tables)

    def request(self, words):
        """The words and files of `fillcsv` for it."""
        width = len(self.rows[0]) + 1
        records = [[*it, self.given.get(row, "")] for row, it in enumerate(self.rows)]
        if self.names is not None:  # a name that is the number of the column to fill would be taken for it
            records.insert(0, [f"“{it}”" if it == str(width) else it for it in self.names])
        words = ["the sheet", f"--to={width}", "--state", *words] + ([] if self.names is not None else ["--no-header"])
        words += [f"--example={row + self.first}=" for row, text in self.given.items() if not text]  # these stay empty
        files = {"the sheet": sheet_of(records)}
        if self.tables:
            words += self.tables.words
            files.update(self.tables.files)
        return words, files


class Filled:
    """A filled column: texts and states by row, the lines of the rule in words, the texts that are not learned from, and the
    doubts that are told."""

    def __init__(self, texts, states, told, first):
        self.texts, self.states, self.rule = texts, states, told.rule
        self.doubts = {row - first: it for row, it in told.doubts.items()}
        self.refusals = {row - first: it for row, it in told.refusals.items()}
        for it in self.refusals.values():
            if it.reason == "clash":
                it.number -= first

    def answer(self, row):
        """The text that the rule gives on a row, None where it gives none."""
        return None if self.states[row] in (NONE, NONE_DOUBT) else self.texts[row]

    def is_doubtful(self, row):
        return self.states[row] in (DOUBT, NONE_DOUBT)


def sheet_of(records):
    """The bytes of a CSV file of these records."""
    text = io.StringIO()
    csv.writer(text, quoting=csv.QUOTE_ALL, lineterminator="\n").writerows(records)
    return text.getvalue().encode("utf-8", "replace")


def records_of(sheet):
    return list(csv.reader(io.StringIO(sheet.decode("utf-8", "replace"), newline="")))


class Tables:
    """Tables that rules may look up in: records of texts, by name. The engine tells what can be a key of each."""

    def __init__(self, records):
        self.records, self.words, self.files = records, [], {}
        for name, table in list(records.items())[:MOST_TABLES]:
            sheet = sheet_of(table)
            answer = engine.run("flashfill", ["keys", name], {name: sheet})
            keys = [it.partition(",")[2] for it in answer.out.decode().splitlines()] if answer.status == 0 else []
            keys = [it for it in keys if it.count(",") + 1 < len(table[0])][:MOST_KEYS]
            if keys:
                self.files[name] = sheet
                self.words += [f"--table={name}={name}", *(f"--key={name}:{it}" for it in keys)]
        if len(self.files) > 1:
            self.words.append("--depth=2")

    def __eq__(self, other):
        return isinstance(other, Tables) and self.records == other.records


def _ask(question, *words):
    words, files = question.request(words)
    width = len(question.rows[0]) + 1
    answer = engine.checked("fillcsv", words, files)
    out = records_of(answer.out)[question.first - 1:]
    return Filled([it[width - 1] for it in out], [it[width] for it in out], Told(answer.err), question.first)


def _parts(question):
    """The rows of each part, in their order."""
    rows = range(len(question.rows))
    if len(rows) <= PART or len(question.given) > MOST_GIVEN:
        return [list(rows)]
    return [sorted({*question.given, *rows[at:at + PART]}) for at in range(0, len(rows), PART)]


def _ask_all(questions, wait, *words):
    """The answers to all questions, in threads. `wait` gets their futures, and returns once these are done."""
    futures, is_collecting = [], gc.isenabled()
    gc.disable()  # a collection in such a thread may free objects of LibreOffice, and would wait for the lock that this one holds
    pool = concurrent.futures.ThreadPoolExecutor(min(len(questions), os.cpu_count() or 1))
    try:
        before = threading.stack_size(STACK)
        try:
            futures += [pool.submit(_ask, it, *words) for it in questions]
        finally:
            threading.stack_size(before)
        wait(futures)
    finally:
        if is_collecting:
            gc.enable()
        for it in futures:
            it.cancel()
        pool.shutdown(wait=False)
    return [it.result() for it in futures]


def fill(question, wait, explains=False):
    """Fills a column. With `explains` doubts have the words of the other rule, if no row has so much to read that it takes long."""
    words = ["--explain"] if explains and all(sum(map(len, row)) <= EASY for row in question.rows) else []
    parts = _parts(question)
    if len(parts) == 1:
        return _ask_all([question], wait, *words)[0]
    answers = _ask_all([question.part(it) for it in parts], wait, *words)
    filled, places = answers[0], parts[0]
    texts, states = [""] * len(question.rows), [""] * len(question.rows)
    for kept, part in zip(parts, answers):
        for at, row in enumerate(kept):
            texts[row], states[row] = part.texts[at], part.states[at]
    filled.texts, filled.states = texts, states
    filled.doubts = {places[at]: it for at, it in filled.doubts.items()}
    filled.refusals = {places[at]: it for at, it in filled.refusals.items()}
    for it in filled.refusals.values():
        if it.reason == "clash":
            it.number = places[it.number]
    return filled


def explain(question, row, wait):
    """The first answer of one row, and its doubt, None where all rules agree."""
    kept = sorted({*sorted(question.given)[:MOST_EXAMPLES], row})
    at = kept.index(row)
    filled = _ask_all([question.part(kept)], wait, "--explain")[0]
    return filled.answer(at), filled.doubts.get(at)
