"""Damaged inputs: files of sessions, sheets, tables and rules with some bits turned, cut, spliced or doubled."""
import random
import tempfile

from start import examples

import programs
import records
import sessions
import sheets


def damaged(chance, text, other):
    """A text with some damage; pieces of another one may be put into it."""
    made = bytearray(text)
    for _ in range(chance.choice([1, 1, 1, 2, 4])):
        at, end = sorted(chance.randrange(len(made) + 1) for _ in range(2))
        kind = chance.randrange(7)
        if kind == 0 and made:
            made[at % len(made)] ^= 1 << chance.randrange(8)
        elif kind == 1:
            del made[at:]
        elif kind == 2:
            del made[at : min(end, at + 8)]
        elif kind == 3:
            made[at:at] = chance.choice([b"\x00", b"\xff", b'"', b"\n", b"\r", b",", b"\xef\xbb\xbf", b"\xed\xa0\x80", b"-", b"(", b"9" * 30])
        else:
            lines, others = bytes(made).splitlines(keepends=True), other.splitlines(keepends=True)
            place = chance.randrange(len(lines) + 1)
            if kind == 4 and others:
                lines.insert(place, chance.choice(others))
            elif kind == 5 and lines:
                lines.insert(place, chance.choice(lines))
            elif lines:
                lines.pop(place % len(lines))
            made = bytearray(b"".join(lines))
    return bytes(made)


def session(chance, seed):
    """The words and the files of a session of the examples or a random one, one file damaged."""
    kept = examples()
    some = [["replay", it] for it in kept if it.endswith("-session.csv")]
    some += [["apply", "phones-session.csv", "phones-report.csv", "more-phones.csv"], ["keys", "prices.csv"]]
    words, files = (chance.choice(some), dict(kept)) if chance.random() < 0.3 else sessions.session(seed, "tiny")
    names = [it for it in files if it in words or words[0] == "replay" and it.endswith(".csv") and len(files) < 8] or list(files)
    if names:
        name = chance.choice(sorted(names))
        files = {**files, name: damaged(chance, files[name], files[chance.choice(sorted(files))])}
    return words, files


def sheet(chance, seed):
    """The words, the files and the standard input of a random sheet, or of a rule over a stream, one of them damaged."""
    if chance.random() < 0.3:
        kept = examples()
        rule, stream = chance.choice([("label.rule", "more-people.csv"), ("month.rule", "more-sales.csv")])
        files = dict(kept)
        name = chance.choice([rule, rule, stream, "months.csv"])
        files[name] = damaged(chance, files[name], files[chance.choice([rule, stream])])
        return ["--rule", rule], files, files[stream]
    case = sheets.case(seed)
    files = {**case.files, "sheet.csv": case.sheet, "other.csv": case.other}
    name = chance.choice(["sheet.csv", "sheet.csv", *sorted(case.files)])
    files[name] = damaged(chance, files[name], case.other)
    given = files["sheet.csv"] if case.piped else damaged(chance, b"\n".join(case.replies) + b"\n", case.other)
    return case.words, files, given


def is_right(words, files, given, came):
    """Whether `fillcsv` ended with one of its statuses, wrote nothing where it refuses, and else each record."""
    status, output, _ = came
    if status not in (0, 1, 2, 3, 5):
        return False
    if status > 1:
        return output == b"" or "--rule" in words
    source = given if "--rule" in words or words[0] == "-" else files["sheet.csv"]
    return len(records.read(output)) == len(records.read(source))


def run(flashfill, fillcsv, count, seed):
    """Tries so many damaged inputs for each program, and answers what went wrong and how many were tried."""
    second, wrong = programs.reference(), []
    with tempfile.TemporaryDirectory() as folder:
        for at in range(seed, seed + count):
            chance = random.Random(f"damage {at}")
            words, files = session(chance, at)
            ours, theirs = (programs.run(it, words, files, folder, 600) for it in (flashfill, second))
            if ours != theirs:
                wrong.append(f"damaged input {at}: flashfill {' '.join(words)}: {ours!r}, by the second program {theirs!r}: {files!r}")
            words, files, given = sheet(chance, at)
            came = programs.run(fillcsv, words, files, folder, 600, given)
            if not is_right(words, files, given, came):
                wrong.append(f"damaged input {at}: fillcsv {' '.join(words)}: {came!r}: {files!r}")
    return wrong, 2 * count
