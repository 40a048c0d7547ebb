#!/usr/bin/env python3
"""Compares the engine's answers with those of the programs, byte for byte: compare.py FLASHFILL FILLCSV NUMBER [SEED]

All sessions of examples/, and so many random requests, some of them damaged, from four threads at once. Each rule that the
engine saves is run by both over another sheet.
"""
import concurrent.futures
import ctypes
import pathlib
import random
import subprocess
import sys
import tempfile

HERE = pathlib.Path(__file__).resolve().parent
sys.path.insert(0, str(HERE / "python/src"))
from flashfill import engine  # noqa: E402

EXAMPLES = {it.name: it.read_bytes() for end in ("csv", "rule") for it in sorted((HERE.parent / "examples").glob(f"*.{end}"))}
SAVED = "saved.rule"
SESSIONS = [it for it in EXAMPLES if it.endswith("-session.csv")]
COLUMNS = ["Label", "Name", "Mail", "City", "1", "4", "5", "Month", "2", "", "no", "Name,City", "1,2,3", "Name,Name"]


def taken(request, count):
    if len(request) < count:
        raise ValueError
    return request[:count], request[count:]


def number_of(request):
    number, rest = taken(request, 8)
    return int.from_bytes(number, "little"), rest


def piece_of(request):
    return taken(*reversed(number_of(request)))


def text_of(request):
    text, rest = piece_of(request)
    return text.decode(), rest  # a UnicodeDecodeError is a ValueError


def call_of(request):
    """The program, the words and the files of a request; a ValueError where it is none."""
    program, rest = text_of(request)
    if program not in ("flashfill", "fillcsv"):
        raise ValueError
    count, rest = number_of(rest)
    words, files = [], {}
    for _ in range(count):
        word, rest = text_of(rest)
        words.append(word)
    count, rest = number_of(rest)
    for _ in range(count):
        name, rest = text_of(rest)
        files[name], rest = piece_of(rest)
    if rest:
        raise ValueError
    return program, words, files


def wanted(request, programs):
    """What the program of a request answers; none where no process can be given its words and files."""
    try:
        program, words, files = call_of(request)
    except ValueError:
        return 7, b"", b"", b""
    if any("\0" in it for it in [*words, *files]) or any("/" in it or it in ("", ".", "..") for it in files):
        return None
    with tempfile.TemporaryDirectory() as folder:
        for name, text in files.items():
            pathlib.Path(folder, name).write_bytes(text)
        ran = subprocess.run([programs[program], *words], cwd=folder, input=files.get("-", b""), capture_output=True, timeout=300)
        saved = [it.read_bytes() for it in pathlib.Path(folder).iterdir() if it.name not in files]
        return ran.returncode, ran.stdout, ran.stderr, b"".join(saved)


def is_told(request, answer):
    """Whether a room that is too small is told the size, and stays as it was, and one of that size is filled."""
    size = 25 + len(answer.out) + len(answer.err) + len(answer.saved)
    call = engine.library().fill_engine
    for given in (0, 1, size - 1, size):
        room = ctypes.create_string_buffer(b"\xaa" * (size + 1), size + 1)
        if call(request, len(request), room, given) != size or room.raw[given:] != b"\xaa" * (size + 1 - given):
            return False
        if given < size and room.raw != b"\xaa" * (size + 1):
            return False
    return True


def damaged(random, text, changes):
    text = bytearray(text)
    for _ in range(changes):
        at = random.randrange(len(text))
        how = random.randrange(4)
        if how == 0:
            text[at] = random.randrange(256)
        elif how == 1:
            text[at] = random.choice(b',"\n 01aZ')
        elif how == 2:
            del text[at]
        else:
            text.insert(at, random.choice(b',"\n 01aZ\xc3'))
    return bytes(text)


def session(random):
    name = random.choice(SESSIONS)
    files, changed = dict(EXAMPLES), random.choice([it for it in EXAMPLES if it.partition("-")[0] == name.partition("-")[0]])
    files[changed] = damaged(random, files[changed], random.randrange(1, 5))
    return "flashfill", ["replay", name], files


def filled(random):
    words = [random.choice(["people.csv"] * 6 + ["sales.csv"] * 3 + ["phones.csv", "gone.csv"])]
    words += ["--to", random.choice(COLUMNS)] if random.random() < 0.95 else []
    words += ["--from", random.choice(COLUMNS)] if random.random() < 0.5 else []
    words += [it for it in ("--state", "--no-header", "--only=sure", "--profile=2", "--explain", "--help", "--what") if random.random() < 0.2]
    words += random.choice([[]] * 2 + [["--table=months=months.csv", "--key=months:1"], ["--table=m=gone.csv"], ["--key=m:1,1"], ["--key=m:2"]])
    words += [f"--save-rule={SAVED}"] if random.random() < 0.4 else []
    files = dict(EXAMPLES)
    if random.random() < 0.5:
        files["people.csv"] = damaged(random, files["people.csv"], random.randrange(1, 5))
    if random.random() < 0.2:
        words[0], files["-"] = "-", files["people.csv"]
    return "fillcsv", words, files


def ruled(random):
    """A run of a saved rule; the rule and the sheet may be damaged, and standard input may be left out."""
    saved = EXAMPLES[random.choice(["label.rule", "month.rule"])]
    rule = random.choice([saved, damaged(random, saved, random.randrange(1, 4))])
    sheet = random.choice(["more-people.csv", "people.csv", "more-sales.csv", "sales.csv", None])
    files = {"a.rule": rule, "months.csv": EXAMPLES["months.csv"], "-": EXAMPLES[sheet] if sheet else b""}
    if random.random() < 0.5 and files["-"]:
        files["-"] = damaged(random, files["-"], random.randrange(1, 5))
    for name in ("months.csv", "-"):
        if random.random() < 0.1:
            del files[name]
    words = random.choice([["--rule", "a.rule"]] * 5 + [["--rule", "-"], ["--rule", "gone.rule"], ["--rule"]])
    return "fillcsv", words + random.choice([[], [], ["--quiet"], ["--state"]]), files


def other(random):
    names = [*EXAMPLES, "gone.csv", ""]
    saved = ["phones-session.csv", "phones-report.csv", "more-phones.csv"]
    words = random.choice([
        ["made", str(random.randrange(0, 30))],
        ["keys", random.choice(names)],
        ["apply", *saved],
        ["apply", *random.choices(names, k=3)],
        ["replay", random.choice(names)],
        random.choices(["replay", "apply", "keys", "made", "3", "x", ""], k=random.randrange(5)),
    ])
    return "flashfill", words, EXAMPLES


def random_request(random):
    kind = random.choice([session, session, filled, filled, ruled, other])
    request = engine.request_of(*kind(random))
    if random.random() < 0.2:  # damage to its form
        request = request[: random.randrange(len(request))] if random.random() < 0.5 else damaged(random, request[:80], 1) + request[80:]
    return request


def main(programs, number, seed):
    made = random.Random(seed)
    requests = [engine.request_of("flashfill", ["replay", it], EXAMPLES) for it in SESSIONS]
    requests += [engine.request_of("fillcsv", ["people.csv", "--to=Label", f"--save-rule={SAVED}"], EXAMPLES)]
    requests += [random_request(made) for _ in range(number)]

    def differs(request):
        want, got = wanted(request, programs), engine.answer_of(request)
        if want is not None and want != got or not is_told(request, got):
            return True, want
        if got.saved:
            files = {**EXAMPLES, "a.rule": got.saved, "-": EXAMPLES["more-people.csv"]}
            return differs(engine.request_of("fillcsv", ["--rule", "a.rule"], files))
        return False, want

    with concurrent.futures.ThreadPoolExecutor(4) as pool:
        answers = list(pool.map(differs, requests))
    for at, (is_wrong, want) in enumerate(answers):
        if is_wrong:
            sys.exit(f"compare: request {at} of seed {seed} is not answered as by the program: {want}")
    statuses = sorted({want[0] for _, want in answers if want})
    print(f"compare: {len(requests)} requests from four threads, statuses {statuses}")


if __name__ == "__main__":
    main({"flashfill": sys.argv[1], "fillcsv": sys.argv[2]}, int(sys.argv[3]), int(sys.argv[4]) if len(sys.argv) > 4 else 1)
