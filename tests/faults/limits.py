"""Long runs with a limit on memory and stack: sessions, sheets and streams of many rows, and the deepest notation."""
import os
import sys
import tempfile

from start import ROOT, examples, put, start

sys.path.insert(1, os.path.join(ROOT, "bench"))
from usual import csv, people, sessions  # noqa: E402

MB = 1 << 20
STACK = 256 << 10


def long_runs(flashfill, fillcsv, rows):
    """Programs with words, files, what standard input gives, and a limit of memory in MB with which all is written."""
    found = {it[0]: it for it in sessions()}
    for name in ("fill-20000", "edits-64"):
        _, _, words, files = found[name]
        yield flashfill, words, {it: text.encode() for it, text in files.items()}, b"", 64
    nested = b"switch,Switch(else=>Concat(" + b"Whole(" * 100000 + b"))\n"
    yield flashfill, ["apply", "s.csv", "p.csv", "t.csv"], {"s.csv": b"sheet,t.csv\ninputs,1\nbegin\n", "t.csv": b"a\n", "p.csv": nested}, b"", 64
    some = people(rows, 9)
    sheet = "Name,City,Label\n" + csv((f"{f}{m} {l}", c, f"{l} ({c})" if row < 2 else "") for row, (f, m, l, c, _, _) in enumerate(some))
    yield fillcsv, ["t.csv", "--to", "Label", "--quiet"], {"t.csv": sheet.encode()}, b"", 96
    kept = examples()
    stream = "Name,City\n" + csv((f"{f}{m} {l}", c) for f, m, l, c, _, _ in some)
    yield fillcsv, ["--rule", "label.rule", "--quiet"], {"label.rule": kept["label.rule"]}, stream.encode(), 32


def run(flashfill, fillcsv, count):
    """Tries some limits, more with a larger count up to some bound, and answers what went wrong and how many were tried."""
    wrong, tried, rows, limits = [], 0, min(10000 + 100 * count, 200000), min(2 + count // 100, 40)
    for program, words, files, given, enough in long_runs(flashfill, fillcsv, rows):
        with tempfile.TemporaryDirectory() as folder:
            put(folder, files)
            whole = start(program, words, folder, given)
            for part in range(1, limits + 1):
                memory = enough * MB if part == 1 else max(4 * MB, enough * MB // part)
                status, output, lines = start(program, words, folder, given, memory=memory, stack=STACK)
                tried += 1
                ended = status == 6 and lines.endswith(b": out of memory\n") and whole[1].startswith(output) and part > 1
                if (status, output) != whole[:2] and not ended:
                    wrong.append(f"{memory} bytes: {os.path.basename(program)} {' '.join(words)}: {status}, {lines[-300:]!r}")
    return wrong, tried
