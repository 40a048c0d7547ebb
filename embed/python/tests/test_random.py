"""Random frames are filled as the program fills the same CSV: that of FILLCSV, else the engine's own over the bytes."""
import csv
import datetime
import os
import pathlib
import subprocess
import tempfile
import warnings

import pandas
from hypothesis import HealthCheck, given, settings
from hypothesis import strategies as some

import flashfill
from flashfill.cells import records_of

SIGNS = ['"', ",", "\n", "\r\n", " ", "é\u0301", "\U0001f600", "("]
WORDS = ["Ada", "Byron", "Max", "O'Neil", "du Châtelet", "42", "007", "a-1", "x@y.org", *SIGNS]
TEXTS = some.builds(str.join, some.sampled_from([" ", ""]), some.lists(some.sampled_from(WORDS), max_size=4))
KINDS = [
    some.one_of(TEXTS, some.text(max_size=6).filter(lambda it: it.isprintable()), some.none()),
    some.integers(-1000, 1000),
    some.dates(datetime.date(1990, 1, 1), datetime.date(2030, 1, 1)),
    some.sampled_from([0.5, 12.25, -1.75]),
]
NAMES = some.lists(some.text("ab ,\"'é\n(-=", min_size=1, max_size=4), min_size=2, max_size=5, unique=True)


@some.composite
def tasks(draw):
    """A frame, the column to fill, examples by label, and the columns to read."""
    names, count = draw(NAMES), draw(some.integers(1, 8))
    columns = {it: draw(some.lists(draw(some.sampled_from(KINDS)), min_size=count, max_size=count)) for it in names[1:]}
    frame = pandas.DataFrame(columns, index=draw(some.permutations(range(count))))
    to, rows = names[0], some.integers(0, count - 1)
    if draw(some.booleans()):
        frame.insert(draw(some.integers(0, len(names) - 1)), to, pandas.Series([None] * count, index=frame.index, dtype=object))
        for at in draw(some.sets(rows, max_size=3)):
            frame.loc[frame.index[at], to] = draw(pieces(frame, at, to))
    examples = {int(frame.index[at]): draw(pieces(frame, at, to)) for at in draw(some.sets(rows, max_size=3))}
    sources = draw(some.one_of(some.none(), some.lists(some.sampled_from(names[1:]), min_size=1, unique=True)))
    return frame, to, examples, sources


def pieces(frame, at, to):
    """Texts that a rule could give for a row, or any others."""
    cells = [str(it) for name, it in frame.iloc[at].items() if name != to and it is not None]
    ends = some.tuples(some.sampled_from([*cells, "x"]), some.integers(0, 5), some.integers(1, 9))
    return some.one_of(ends.map(lambda it: it[0][it[1] : it[1] + it[2]]), TEXTS).filter(lambda it: it == "" or len(it) <= 100)


def by_program(frame, to, examples, sources):
    """The status, the sheet's records and the rule that the program gives for the frame's CSV."""
    sheet = frame.to_csv(index=False, quoting=csv.QUOTE_ALL, lineterminator="\n").encode()
    names = list(frame.columns)
    words = ["s.csv", "--state", "--save-rule=s.rule", f"--to={names.index(to) + 1}" if to in names else f"--new={to}"]
    words += [] if sources is None else [f"--from={','.join(str(names.index(it) + 1) for it in sources)}"]
    words += [f"--example={frame.index.get_loc(label) + 2}={text}" for label, text in examples.items()]
    if not os.environ.get("FILLCSV"):
        answer = flashfill.run("fillcsv", words, {"s.csv": sheet})
        return answer.status, records_of(answer.out), answer.saved
    with tempfile.TemporaryDirectory() as folder:
        pathlib.Path(folder, "s.csv").write_bytes(sheet)
        ran = subprocess.run([os.environ["FILLCSV"], *words], cwd=folder, capture_output=True, stdin=subprocess.DEVNULL)
        rule = pathlib.Path(folder, "s.rule")
        return ran.returncode, records_of(ran.stdout), rule.read_bytes() if rule.exists() else b""


@settings(max_examples=50, deadline=None, derandomize=True, database=None, suppress_health_check=list(HealthCheck))
@given(tasks())
def test_frames_are_filled_as_the_program_fills_their_csv(task):
    frame, to, examples, sources = task
    before = frame.copy()
    status, records, rule = by_program(*task)
    assert status in (0, 1)
    with warnings.catch_warnings():
        warnings.simplefilter("ignore", flashfill.FlashFillWarning)
        learned = flashfill.learn(*task)
    at = records[0].index(to)
    assert ["" if it is None or it != it else str(it) for it in learned.frame[to]] == [it[at] for it in records[1:]]
    assert learned.states.tolist() == [it[-1] for it in records[1:]]
    assert (learned.rule is None) == (rule == b"") and (sources is not None or learned.rule is None or learned.rule.text == rule)
    assert frame.equals(before) and learned.frame.drop(columns=to).equals(frame.drop(columns=to, errors="ignore"))
    if learned.rule and to in frame.columns:
        again = learned.rule.apply(frame)
        kept = [it in ("given", "none", "none doubt") or old == new for it, old, new in zip(learned.states, again[to], learned.frame[to])]
        assert all(kept)
