"""The sessions that are hardest within the limits: what they are, the words, and the files. The same at each run."""
import os
import random
import sys

sys.path.insert(0, os.path.join(os.path.dirname(os.path.realpath(__file__)), "..", "..", "bench"))
from usual import REPLAY, adds, csv  # noqa: E402


def noise(seed, characters, length, count):
    """Some texts of random characters."""
    chance = random.Random(seed)
    return ["".join(chance.choice(characters) for _ in range(length)) for _ in range(count)]


def learned(texts, cells, after="programs\n", inputs="1", more=""):
    """The files of a session that learns these texts from rows of cells."""
    session = f"sheet,t.csv\ninputs,{inputs}\n{more}begin\n{adds(texts)}{after}"
    return {"s.csv": session, "t.csv": csv(cells)}


def sessions():
    """The name of each, what it is, its words and its files."""
    ones = lambda texts: [(it,) for it in texts]
    five = noise(2, "aB1 -", 100, 64)
    for count, joins in ((2, "one join"), (3, "two joins"), (4, "three joins"), (8, "seven joins")):
        yield f"five-kinds-{count}", f"{count} examples of 100 characters of five kinds ({joins})", REPLAY, learned(five[:count], ones(five))
    eight = noise(3, "aB1 -.,x", 100, 64)
    yield "eight-kinds-8", "8 examples of 100 characters of eight kinds", REPLAY, learned(eight[:8], ones(eight))
    yield "one-letter-2", "2 examples of 100 `a`, from cells of 1,000", REPLAY, learned(["a" * 100] * 2, ones(["a" * 1000, "a" * 999]))
    cells = ones("a" * (1000 - row) for row in range(4))
    yield "one-letter-4", "4 examples of 100 `a`, from cells of 1,000", REPLAY, learned(["a" * 100] * 4, cells)
    texts = [("ab " * 40)[row : row + 100].strip() for row in range(4)]
    cells = ones(("ab " * 300)[: 900 - row] for row in range(4))
    yield "pattern-4", "4 examples of `ab ab ..`, from cells of 900", REPLAY, learned(texts, cells)
    digits = noise(4, "01", 80, 64)
    yield "digits-64", "64 examples of 50 digits", REPLAY, learned([it[10:60] for it in digits], ones(digits))
    asked = "".join(f"object,{row}\n" for row in range(3, 31))
    texts, cells = noise(5, "aB1 -", 60, 2), ones(noise(5, "aB1 -", 60, 30))
    yield "objections-28", "28 objections after two examples of 60 characters of noise", REPLAY, learned(texts, cells, asked)
    keys = [(f"k{n % 13}", f"g{n // 13 % 13}", f"h{n // 169}", f"v{n}") for n in range(2000)]
    cells = ones(" ".join(keys[n][:3]) for n in [5, 700, *range(30, 90)])
    files = learned([keys[5][3], keys[700][3]], cells, "programs\nfill\n", more="table,k,k.csv\nkey,k,1,2,3\n")
    yield "three-conditions", "lookups by three conditions", REPLAY, {**files, "k.csv": csv(keys)}
    long = ("lorem ipsum dolor 12, " * 760000)[:16000000]
    cells = ones(["lorem 7", "sit 8", long])
    yield "long-cell", "a cell of 16 million characters, after two short examples", REPLAY, learned(["lorem", "sit"], cells, "programs\nfill\n")
    cells = ones(["lorem 7", "sit 8"] + [long[n : n + 20000] for n in range(500)])
    yield "long-cells", "500 cells of 20,000 characters", REPLAY, learned(["lorem", "sit"], cells, "programs\nfill\n")
    rows = [tuple(str((n // 2) % (column + 2)) for column in range(32)) for n in range(2000)]
    yield "keys-none", "32 columns of 2,000 rows without a key", ["keys", "t.csv"], {"t.csv": csv(rows)}
    report = "a\n" * 8000000 + "switch,Switch(else=>Concat(Whole(Col(1))))\n"
    files = {"s.csv": "sheet,t.csv\ninputs,1\nbegin\n", "t.csv": "x y\n", "p.csv": report}
    yield "report-16-mb", "a saved report of 16 MB", ["apply", "s.csv", "p.csv", "t.csv"], files
    files = learned([f"w{3 * n + 3}" for n in range(3)], ones(f"w{3 * n}" for n in range(40)), "programs\nfill\n", more="table,n,n.csv\nkey,n,1\nkey,n,2\nprofile,2\ndepth,3\n")
    files["n.csv"] = csv((f"w{n}", f"w{n + 1}") for n in range(2000))
    yield "chain-3", "a table of 2,000 rows that leads to itself, `depth,3`", REPLAY, files
