"""What `fillcsv` writes and tells over a sheet, as its document says, with answers, states and objectors from reports of the
second program."""
import os

import records
from order import order_of
from programs import run

# how many rows are told one by one
MOST_TOLD = 10
# how many characters of an answer a question tells
MOST_ASKED = 60
# seconds for one report
PATIENCE = 300


class Case:
    """What is asked of `fillcsv`, apart from the words for it."""

    def __init__(self, **parts):
        self.files = {}
        self.sheet = self.other = b""
        # the column that is filled, whether it is new and under which name, the columns that are read
        self.column, self.new, self.inputs = 1, None, []
        self.header, self.replace, self.typed = True, False, {}
        self.tables, self.keys, self.depth, self.profile = [], [], 1, 3
        self.state = self.only_sure = self.strict = self.quiet = self.explain = self.ask = self.save = self.piped = False
        self.replies = []
        self.__dict__.update(parts)


class Report:
    """What the second program reports of some examples: refusals, answers and objectors by row, and the switch."""

    def __init__(self, text):
        self.refused, self.rows, self.objectors, self.switch = [], {}, {}, ""
        for record in records.read(text):
            fields = [it.decode() for it in record]
            if fields[:2] == ["refused", "add"]:
                self.refused.append((int(fields[2]), fields[3]))
            elif fields[0] == "row":
                self.rows[int(fields[1])] = fields[2], fields[3]
            elif fields[0] == "object" and fields[4] != "agreed":
                self.objectors[int(fields[1])] = fields[2], fields[3] if fields[4] == "some" else None
            elif fields[0] == "switch":
                self.switch = fields[1]


class Filled:
    """The model of one case, with the second program and a folder for its files."""

    def __init__(self, case, second, folder):
        self.case, self.second, self.folder = case, second, folder
        self.all = records.read(case.sheet)
        self.rows = self.all[1:] if case.header else self.all
        self.width = max([len(it) for it in self.all], default=0)
        self.above = 1 if case.header else 0
        self.column = self.width + 1 if case.new else case.column

    def session(self, typed):
        """The session file whose report has the answers: the examples in the order of their rows."""
        case = self.case
        lines = [["sheet", "sheet.csv"], ["profile", str(case.profile)], ["inputs", *map(str, sorted(case.inputs))]]
        lines += [["header"]] if case.header else []
        lines += [["depth", str(min(case.depth, 2 if case.profile == 1 else 3))]]
        lines += [["table", name, file] for name, file in case.tables] + [["key", name, *map(str, it)] for name, it in case.keys]
        lines += [["begin"]]
        for row in range(1, len(self.rows) + 1):
            given = self.given(row, typed)
            lines += [] if given is None else [["add", str(row), given]]
        lines += [["fill"], ["switch"]] + [["object", str(row)] for row in range(1, len(self.rows) + 1)]
        return records.write([[it.encode() for it in line] for line in lines])

    def cell(self, row):
        """What the column holds on a row, where that counts."""
        fields, at = self.rows[row - 1], self.column - 1
        return fields[at] if at < len(fields) and not self.case.replace and not self.case.new else b""

    def given(self, row, typed):
        """The text that a row gives: what is typed for it, or else its cell."""
        if row in typed:
            return typed[row]
        return self.cell(row).decode() or None

    def report(self, typed):
        files = {**self.case.files, "s.csv": self.session(typed), "sheet.csv": self.case.sheet}
        status, output, line = run(self.second, ["replay", "s.csv"], files, self.folder, PATIENCE)
        return None if status > 1 else Report(output)

    def in_doubt(self, report, typed, passed=()):
        """The rows in doubt that give nothing themselves, the one to look at next first."""
        rows = [row for row in report.objectors if self.given(row, typed) is None and row not in passed]
        silent = lambda row: report.rows[row][1] == "none doubt"
        return sorted(rows, key=lambda row: (not silent(row), order_of(report.objectors[row][0], self.case.profile), row))

    def answers(self, report, row):
        """Both answers for a row in doubt."""
        text, state = report.rows[row]
        return None if state == "none doubt" else text, report.objectors[row][1]

    def ask(self, told):
        """The typed texts with those of the replies, which are told what is asked."""
        typed, kept, replies = dict(self.case.typed), [], list(self.case.replies)
        while True:
            now = {**typed, **{row: text for row, text in reversed(kept) if text is not None}}
            report = self.report(now)
            passed = [row for row, _ in kept] + [row for row, _ in report.refused]
            rows = self.in_doubt(report, now, passed)
            if not rows:
                return now
            row = rows[0]
            if kept and kept[-1][0] in [it for it, _ in report.refused]:
                told.append(f"fillcsv: row {kept[-1][0] + self.above}: not learned from")
            first, second = self.answers(report, row)
            told += [f"row {row + self.above}:", f"  Enter: {cut(first)}   2: {cut(second)}"]
            if not replies:
                return now
            line = replies.pop(0).rstrip(b"\r")
            try:
                reply = line.decode()
            except UnicodeDecodeError:
                continue
            if reply == "q":
                return now
            if reply == "u":
                del kept[-1:]
            elif reply == "s":
                kept.append((row, None))
            else:
                words = {"": first or "", "2": second or "", "-": ""}
                kept.append((row, words.get(reply, reply[1:] if reply.startswith("=") else reply)))

    def expected(self):
        """The status, the output and the lines; the output and the lines are None where the sheet is not filled."""
        case, told = self.case, []
        is_there = max([*case.inputs, *([] if case.new else [self.column])]) <= self.width and max([0, *case.typed]) <= len(self.rows)
        if not is_there or self.report(case.typed) is None:
            return 5, b"", None, ""
        typed = self.ask(told) if case.ask else case.typed
        report = self.report(typed)
        counted = [row for row, reason in report.refused if reason != "too many examples"]
        told += [f"fillcsv: row {row + self.above}: not learned from" for row in counted[:MOST_TOLD]]
        if len(counted) > MOST_TOLD:
            told.append(f"fillcsv: {len(counted) - MOST_TOLD} more cells are not learned from")
        if len(counted) < len(report.refused):
            told.append("fillcsv: only the first 64 filled cells are learned from")
        states, filled = [], []
        for row, fields in enumerate(self.rows, 1):
            answer, state = report.rows[row]
            if row in typed:
                state, cell = "given", typed[row].encode()
            elif self.cell(row):
                state, cell = "given", self.cell(row)
            else:
                cell = b"" if case.only_sure and state.endswith("doubt") else answer.encode()
            states.append(state)
            filled.append(self.record(fields, cell, state.encode()))
        if case.header and self.all:
            name = case.new.encode() if case.new else (self.all[0] + [b""] * self.column)[self.column - 1]
            head = self.record(self.all[0], name, name + b" state")
            filled.insert(0, head if case.new or case.state else self.all[0])
        mark = b"\xef\xbb\xbf" if case.sheet.startswith(b"\xef\xbb\xbf") else b""
        if "given" not in states:
            told.append("fillcsv: no cell of the column is filled: nothing to learn from")
        given, sure, doubt, nothing, nothing_doubt = map(states.count, ("given", "sure", "doubt", "none", "none doubt"))
        told.append(f"fillcsv: {given} given, {sure} sure, {doubt} doubt, {nothing} none, {nothing_doubt} none doubt")
        rows = self.in_doubt(report, typed)
        for row in sorted(rows)[:MOST_TOLD]:
            told.append(f"fillcsv: row {row + self.above}: {both(self.answers(report, row))}")
        if len(rows) > 1:
            told.append(f"fillcsv: look at row {rows[0] + self.above} next: {both(self.answers(report, rows[0]))}")
        unsure = case.strict and set(states) - {"given", "sure"}
        status = 1 if counted or unsure or (case.save and not report.switch) else 0
        return status, mark + records.write(filled), [] if case.quiet else told, report.switch

    def record(self, fields, cell, state):
        """A record with another field in its column, and its state where that is asked for."""
        case = self.case
        made = fields + [b""] * (self.column - len(fields))
        made[self.column - 1] = cell
        if case.state:
            at = max(self.width, self.column)
            made += [b""] * (at - len(made)) + [state]
        return made

    def rule_filled(self, switch):
        """The other sheet filled by the rule alone, record by record."""
        case = self.case
        files = {**case.files, "s.csv": self.session({}), "p.csv": records.write([[b"switch", switch.encode()]]), "sheet.csv": case.other}
        status, output, line = run(self.second, ["apply", "s.csv", "p.csv", "sheet.csv"], files, self.folder, PATIENCE)
        assert status == 0, (status, line)
        values = [it[2] for it in records.read(output)]
        rows = records.read(case.other)
        filled = []
        for at, fields in enumerate(rows):
            made = fields + [b""] * (self.column - len(fields))
            if case.header and at == 0:
                made[self.column - 1] = case.new.encode() if case.new else made[self.column - 1]
            elif not made[self.column - 1]:
                made[self.column - 1] = values[at - self.above]
            filled.append(made)
        mark = b"\xef\xbb\xbf" if case.other.startswith(b"\xef\xbb\xbf") else b""
        return mark + records.write(filled)


def cut(text):
    """An answer as a question tells it: the front of a long one."""
    return quoted(text) if text is None or len(text) <= MOST_ASKED else quoted(text[:MOST_ASKED]) + ".."


def quoted(text):
    """An answer as it is told."""
    if text is None:
        return "none"
    return '"' + text.replace("\\", "\\\\").replace('"', '\\"').replace("\t", "\\t") + '"'


def both(answers):
    return f"{quoted(answers[0])}, or {quoted(answers[1])}"


def told_in(text):
    """What is compared of the lines on standard error: without rules, reasons and remarks."""
    told = []
    for line in text.decode().replace("> ", "").split("\n"):
        if line.startswith("row "):
            line = line[: line.index(":") + 1]
        for end in ("   or the right text", " by: "):
            line = line.split(end)[0]
        if ": not learned from: " in line:
            line = line[: line.rindex(": ")]
        if line and not line.startswith(("fillcsv: rule: ", "three right", "this line", "fillcsv: no rule to save")):
            told.append(line)
    return told
