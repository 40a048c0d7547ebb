"""Rules in files, as `fillcsv --save-rule` writes and `fillcsv --rule` runs them."""
import csv
import os

from . import engine, memory, words
from .dialogs import choose_file
from .learning import MOST_EXAMPLES, records_of, sheet_of
from .region import Refused, Region, region_of
from .tables import named_tables, records_of_sheet
from .task import Task
from .undoing import follow
from .writing import TEXTS, OneStep, write


def save(view, options):
    """Saves the rule of the selected column. It follows from the examples alone, so the engine gets their rows, with all
    columns of the region, so that numbers of columns are right too."""
    with view.waiting() as waiting:
        task = Task(view.doc, view.controller, waiting)
        task.learn()
    region, header = task.region, task.header
    given = sorted(task.given)[:MOST_EXAMPLES]
    records = [[region.texts(it)[row] for it in range(region.width)] for row in ([0] if header else []) + given]
    for record, row in zip(records[header:], given):
        record[region.to] = task.given[row]
    called = {it: str(it + 1) for it in range(region.width)}
    if header:  # a number that is the name of a column would be taken for that one
        called = {it: records[0][it] if number in records[0] else number for it, number in called.items()}
    request = ["the sheet", f"--to={called[region.to]}", "--from=" + ",".join(called[it] for it in task.read), "--save-rule=the rule"]
    request += [] if header else ["--no-header"]
    request += [f"--example={at + 1 + header}=" for at, row in enumerate(given) if not task.given[row]]
    files = {"the sheet": sheet_of(records)}
    if task.tables:
        request += [f"{it}.csv" if it.startswith("--table=") else it for it in task.tables.words]
        files.update({f"{name}.csv": sheet for name, sheet in task.tables.files.items()})
    rule = engine.checked("fillcsv", request, files).saved
    if not rule:
        raise Refused("no_rule_to_save")
    name = region.texts(region.to)[0] if header else view.words.FILL
    path = choose_file(view.context, view.words, options, True, "".join(it if it.isalnum() else "-" for it in name) + ".rule")
    if path is None:
        return
    try:
        with open(path, "wb") as file:
            file.write(rule)
    except OSError as why:
        raise Refused("file", why) from why
    view.bar.show(view.words.FILL, view.words.RULE_SAVED.format(path))


class Rule:
    """What a rule's file says of its columns: their names, or numbers from 1 where it has no header; the last one is filled."""

    def __init__(self, content):
        lines = [it for it in csv.reader(content.decode("utf-8", "replace").split("\n")) if it]
        found = {it[0]: it[1:] for it in lines}
        if "switch" not in found or "output" not in found:
            raise Refused("wrong_rule", "switch")
        self.names = found.get("names") if ["header"] in lines else None
        self.numbers = [int(it) - 1 for it in found["inputs"] + found["output"]]
        self.tables = [it[2] for it in lines if it[0] == "table" and len(it) > 2]

    def places(self, header):
        """The columns of the rule in a region; the last one may be the first after its columns."""
        if self.names is None:
            return self.numbers
        missing = next((it for it in self.names[:-1] if it not in header), None)
        if missing is not None:
            raise Refused("wrong_rule", f"no column “{missing}”")
        return [header.index(it) if it in header else len(header) for it in self.names]


def run(view, options):
    """Fills the column of a rule in the range around the selected cell, as `fillcsv --rule` does."""
    view.check_writable()
    path = choose_file(view.context, view.words, options, False)
    if path is None:
        return
    try:
        with open(path, "rb") as file:
            content = file.read()
    except OSError as why:
        raise Refused("file", why) from why
    rule = Rule(content)
    with view.waiting() as waiting:
        region = region_of(view.doc, view.controller, needs_beside=False)
        texts = [region.texts(it, waiting.tick) for it in range(region.width)]
        while len(texts) > 1 and not any(texts[-1]):  # the selected cell may stand beside the data
            texts.pop()
        places = rule.places([it[0] for it in texts])
        files = {"-": sheet_of(zip(*texts)), "the rule": content}
        for file in rule.tables:
            sheet = named_tables(view.doc).get(os.path.splitext(os.path.basename(file))[0])
            if sheet is None:
                raise Refused("no_table", os.path.splitext(os.path.basename(file))[0])
            files[file] = sheet_of(records_of_sheet(view.doc, sheet, waiting.tick))
        try:
            answer = engine.checked("fillcsv", ["--rule=the rule", "--quiet"], files)
        except engine.Stopped as why:
            raise Refused("wrong_rule", str(why).rpartition("fillcsv: ")[2]) from why
    _write(view, region, places, records_of(answer.out), os.path.basename(path), rule.names is not None)


def _write(view, region, places, records, name, header):
    """Writes what a rule gives into the cells of its column that hold nothing."""
    doc, sheet = view.doc, region.sheet
    left, right = region.left, region.left + max(places)
    target = Region.of_range(doc, sheet, sheet.getCellRangeByPosition(left, region.top, right, region.bottom).getRangeAddress(), places[-1])
    held = target.held()
    given = {at: record[places[-1]] for at, record in enumerate(records) if len(record) > places[-1]}
    texts = {at: text for at, text in given.items() if text and at in target.open_places() and at not in held}
    follower = follow(doc, words.TITLES)
    follower.begin()
    with OneStep(doc, view.words.RUN_RULE):
        write(target, texts, TEXTS)
        column = memory.Column(sheet.getName(), target.column, header, [it - places[-1] for it in places[:-1]])
        beside = [target.texts(it) for it in places[:-1]]
        column.set_cells([(target.top + at, memory.text_sum(text), memory.content_sum(text, [it[at] for it in beside])) for at, text in texts.items() if at >= header])
        memory.keep(doc, column)
    follower.end()
    view.bar.show(view.words.FILL, view.words.BY_RULE.format(view.words.FILLED.format(sum(1 for it in texts if it >= header)), name))
