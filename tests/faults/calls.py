"""Calls that fail: over the examples and a few more sessions each allocation, open, read and write in turn, or some of them."""
import os
import re
import tempfile

from start import examples, put, start

KINDS = ("memory", "open", "read", "write", "place")
# what the lines on standard error say of a kind of failing calls, behind the program's name
LINES = {
    "memory": r"out of memory",
    "open": r".+: cannot be (read|written)",
    "read": r"(.+: cannot be read|the input cannot be read)",
    "write": r"(output|.+): cannot be written|output cannot be written",
    "place": r".+: cannot be written",
}
# what stands in the place of a rule before it is saved
OLD = b"an old rule\n"
SIX_ROWS = {
    "six.csv": b"sheet,rows.csv\ninputs,1\nbegin\nadd,1,Cd\nadd,2,Ijk\nprograms\nfill\n",
    "rows.csv": b'Ab Cd\nEfgh Ijk\nMn Op\nXy\nBc De Fg\n""\n',
}
MONTH = {
    "month.csv": b"sheet,days.csv\ninputs,1\ntable,months,months.csv\nkey,months,1\nbegin\nadd,1,March\nprograms\nanswer,2\n",
    "days.csv": b"2012-03-11\n1999-07-30\n",
    "months.csv": b"01,January\n02,February\n03,March\n04,April\n05,May\n06,June\n07,July\n08,August\n09,September\n10,October\n11,November\n12,December\n",
}
USUAL = {
    "usual.csv": b"sheet,people5.csv\ninputs,1,2,3,4\noutput,5\nbegin\nadd,3,Meitner (Wien)\nprograms\nfill\ncount\n",
    "people5.csv": b"Ada Byron,ada@lyra.org,555-0101,London,Byron (London)\nMax Planck,max.p@quanta.de,555-0102,Kiel,\n"
    b"Lise Meitner,lise@fission.at,555-0103,Wien,Meitner Wien\nEmmy A Noether,emmy.n@ring.de,555-0104,Erlangen,\n"
    b"Carl Gauss,carl@curve.de,555-0105,Kiel,\nAda Byron,ada@lyra.org,555-0101,London,\n",
}


def commands(flashfill, fillcsv, files):
    """Programs with words and what standard input gives."""
    sessions = [it for it in files if it.endswith("-session.csv")] + ["six.csv", "month.csv", "usual.csv"]
    for name in sessions:
        yield flashfill, ["replay", name], b""
    yield flashfill, ["apply", "phones-session.csv", "phones-report.csv", "more-phones.csv"], b""
    yield flashfill, ["keys", "prices.csv"], b""
    yield flashfill, ["made", "20"], b""
    yield fillcsv, ["people.csv", "--to", "Label", "--from", "Name,City", "--state"], b""
    yield fillcsv, ["-", "--new", "Initials", "--example", "2=AB", "--explain"], files["people.csv"]
    yield fillcsv, ["sales.csv", "--to", "Month", "--table", "months=months.csv", "--key", "months:1", "--save-rule", "new.rule"], b""
    yield fillcsv, ["people.csv", "--to", "Label", "--from", "Name,City", "--ask", "--state"], b"2\n\n"
    yield fillcsv, ["--rule", "label.rule"], files["more-people.csv"]
    yield fillcsv, ["--rule", "month.rule"], files["more-sales.csv"]


def is_right(kind, program, words, came, whole):
    """Whether a run with a failing call ended as it is to end: as without it, or with the status and the line of its kind, and with
    the front of the output."""
    status, output, lines = came
    name = os.path.basename(program)
    if (status, output) == whole[:2]:
        return True
    if kind == "memory" and status == 4 and "--save-rule" in words:  # refused while the rule is saved
        kind = "place"
    if status < 0 or not whole[1].startswith(output) or not lines:
        return False
    last = lines.decode().rstrip("\n").split("\n")[-1]
    if last.startswith("> "):  # behind a question
        last = last[2:]
    if not re.fullmatch(f"{name}: ({LINES[kind]})", last):
        return False
    if kind == "memory":
        return status == 6 and (not output or output.endswith(b"\n"))
    if kind == "place":
        return status == 4 and output == whole[1]
    if kind == "write":
        return status == 4
    if status == 3:
        return output == b"" or "--rule" in words
    return status == 4 and name == "fillcsv"


def saved(folder):
    """The rule where it is saved, and the names of all files."""
    with open(os.path.join(folder, "new.rule"), "rb") as file:
        return file.read(), sorted(os.listdir(folder))


def is_saved(came, whole, here, here_by_whole):
    """Whether the rule is the new one, or the old one where the run ended in another way, and no other file was left."""
    rule, names = here
    return names == here_by_whole[1] and (rule == here_by_whole[0] or rule == OLD and came[:2] != whole[:2])


def numbers(total, most):
    """Some of the numbers from 1 to the total, at most so many, evenly spread."""
    if total <= most:
        return range(1, total + 1)
    return sorted({1 + at * (total - 1) // (most - 1) for at in range(most)}) if most > 1 else [1]


def exact(flashfill, folder):
    """Runs whose output is known byte by byte; tells those that came out otherwise."""
    whole = start(flashfill, ["replay", "usual.csv"], folder)
    line = b"flashfill: output cannot be written\n"
    third = start(flashfill, ["replay", "six.csv"], folder, faults={"KIND": "write", "FAILS": 3, "LASTS": 1})
    room = start(flashfill, ["replay", "month.csv"], folder, faults={"MOST": 10})
    single = start(flashfill, ["replay", "usual.csv"], folder, faults={"SINGLE": 1})
    expected = [
        ("the third write fails", third, (4, b"ok,add,1\nok,add,2\n", line)),
        ("room for ten bytes", room, (4, b"ok,add,1\nb", line)),
        ("one byte a read and a write", single, whole),
    ]
    counted = os.path.join(folder, "counted")
    start(flashfill, ["replay", "month.csv"], folder, faults={"KIND": "read", "COUNTED": counted})
    with open(counted, encoding="ascii") as file:
        reads = int(file.read())
    order, before = ["month.csv", "days.csv", "months.csv"], 0
    for at in range(1, reads + 1):
        came = start(flashfill, ["replay", "month.csv"], folder, faults={"KIND": "read", "FAILS": at})
        lines = [f"flashfill: {name}: cannot be read\n".encode() for name in order]
        now = lines.index(came[2]) if came[2] in lines else -1
        right = came[:2] == (3, b"") and before <= now <= before + 1
        expected.append((f"read {at} fails", came, came if right else "status 3 and the file of this read"))
        before = max(now, before)
    if before != len(order) - 1:
        expected.append(("each file is read", before, len(order) - 1))
    return [f"{what}: {came!r}, expected {wanted!r}" for what, came, wanted in expected if came != wanted]


def run(flashfill, fillcsv, count):
    """Tries some `count` failing calls, and answers what went wrong and how many were tried."""
    files = {**examples(), **SIX_ROWS, **MONTH, **USUAL, "new.rule": OLD}
    asked = list(commands(flashfill, fillcsv, files))
    share = max(1, count // (len(asked) * len(KINDS)))
    wrong, tried = [], 0
    with tempfile.TemporaryDirectory() as folder:
        put(folder, files)
        wrong += exact(flashfill, folder)
        counted = os.path.join(folder, "counted")
        for program, words, given in asked:
            for kind in KINDS:
                put(folder, {"new.rule": OLD})
                whole = start(program, words, folder, given, {"KIND": kind, "COUNTED": counted})
                here = saved(folder)
                with open(counted, encoding="ascii") as file:
                    total = int(file.read())
                # most allocations, so most of the share is theirs
                for at in numbers(total, share * 3 if kind == "memory" else max(1, share // 3)):
                    faults = {"KIND": kind, "FAILS": at}
                    if at % 2:
                        faults["LASTS"] = 1
                    put(folder, {"new.rule": OLD})
                    came = start(program, words, folder, given, faults)
                    tried += 1
                    if not is_right(kind, program, words, came, whole) or not is_saved(came, whole, saved(folder), here):
                        wrong.append(f"{kind}, call {at} of {total}: {os.path.basename(program)} {' '.join(words)}: {came!r}")
    return wrong, tried
