"""Ten usual sessions and a long sheet: what they are, the words, and the files. The same at each run."""
import random

FIRST = "Ada Max Lise Emmy Carl Grace Alan Kurt Rosa Ivan Nina Paul Hans Olga Mary Jean".split()
LAST = "Byron Planck Meitner Noether Gauss Hopper Turing Goedel Franklin Pavlov Simone Erdos Bethe Ladyzhenskaya Curie Perrin".split()
CITIES = "London Kiel Wien Erlangen Berlin Paris Zuerich Boston Moskau Lyon".split()
REPLAY = ["replay", "s.csv"]


def csv(rows):
    """Records of CSV, with quotes where they are needed."""
    quoted = lambda it: '"' + it.replace('"', '""') + '"' if set(it) & set(',"\r\n') or not it else it
    return "".join(",".join(map(quoted, row)) + "\n" for row in rows)


def adds(texts):
    """A line for each text, from row 1 on."""
    return csv(("add", str(row), text) for row, text in enumerate(texts, 1))


def people(count, seed):
    """First name, initial with a blank before it or none, last name, city and two numbers."""
    chance = random.Random(seed)
    rows = []
    for _ in range(count):
        first, last, city = chance.choice(FIRST), chance.choice(LAST), chance.choice(CITIES)
        initial = chance.choice(["", "", "", " " + chance.choice("ABCDE")])
        rows.append((first, initial, last, city, chance.randrange(100, 999), chance.randrange(1000, 9999)))
    return rows


def noise(chance, length):
    return "".join(chance.choice("aB1 -") for _ in range(length))


def lookups():
    """A table of 1,000 things with their groups, one of prices by group, and three examples."""
    chance = random.Random(4)
    kinds = ["pump", "valve", "seal", "ring"]
    things = [(f"I{n:03}", f"{chance.choice(LAST)} {chance.choice(kinds)}", f"G{chance.randrange(40):02}") for n in range(1000)]
    groups = [(f"G{n:02}", f"{chance.randrange(5, 99)}.{chance.randrange(100):02}") for n in range(40)]
    cells = [(f"{it[0]}-{chance.randrange(10, 99)}",) for it in chance.sample(things, 300)]
    by_number, price = {it[0]: it for it in things}, dict(groups)
    wanted = [f"{by_number[it[0][:4]][1]}: {price[by_number[it[0][:4]][2]]}" for it in cells[:3]]
    head = "sheet,t.csv\ninputs,1\ndepth,2\ntable,things,i.csv\nkey,things,1\ntable,groups,g.csv\nkey,groups,1\nbegin\n"
    session = head + adds(wanted) + "programs\nfill\ncount\n"
    return {"s.csv": session, "t.csv": csv(cells), "i.csv": csv(things), "g.csv": csv(groups)}


def sessions():
    """The name of each, what it is, its words and its files."""
    some = people(1000, 1)
    mail = lambda it: f"{it[0].lower()}.{it[2].lower()}@{it[3].lower()}-{it[4]}.example.org"
    sheet = csv((it[0] + it[1] + " " + it[2], mail(it), f"({it[4]}) 555-{it[5]}") for it in some)
    learned = "sheet,t.csv\ninputs,1,2,3\nbegin\n" + adds(f"{it[2]}, {it[0]} ({it[4]})" for it in some[:5]) + "programs\n"
    yield "usual", "1,000 rows of three cells, five examples, `fill` and `count`", REPLAY, {"s.csv": learned + "fill\ncount\n", "t.csv": sheet}
    yield "edits", "the same five examples alone", REPLAY, {"s.csv": learned, "t.csv": sheet}

    many = people(20000, 2)
    sheet = csv((it[0] + it[1] + " " + it[2],) for it in many)
    learned = "sheet,t.csv\ninputs,1\nbegin\n" + adds(it[2] for it in many[:2]) + "programs\n"
    yield "count-20000", "20,000 rows of one short cell, two examples, `count`", REPLAY, {"s.csv": learned + "count\n", "t.csv": sheet}
    yield "fill-20000", "20,000 rows of one short cell, two examples, `fill`", REPLAY, {"s.csv": learned + "fill\n", "t.csv": sheet}
    yield "made", "2,000 generated rows", ["made", "2000"], {}

    some = people(64, 3)
    session = "sheet,t.csv\ninputs,1,2\nbegin\n" + adds(f"{it[2]} {it[3]}" for it in some)
    session += "".join(f'retract,{row}\nadd,{row},"{some[row - 1][2]} {some[row - 1][3]}"\n' for row in range(1, 65, 4)) + "programs\n"
    sheet = csv((it[0] + it[1] + " " + it[2], it[3]) for it in some)
    yield "edits-64", "64 examples added, 16 of them retracted and given again", REPLAY, {"s.csv": session, "t.csv": sheet}
    yield "lookups", "a table of 1,000 rows behind another one, three examples, `depth,2`", REPLAY, lookups()

    some = people(1000, 7)
    cells = [(f, l, c, str(a), str(b), m.strip(), l.upper(), f"{c[:2]}-{a}") for f, m, l, c, a, b in some]
    wanted = [f"{it[6]} ({it[2]})" if it[5] else f"{it[1]} {it[7]}" for it in cells[:10]]
    session = "sheet,t.csv\ninputs,1,2,3,4,5,6,7,8\nbegin\n" + adds(wanted) + "programs\nswitch\nfill\ncount\n"
    yield "wide", "eight input columns", REPLAY, {"s.csv": session, "t.csv": csv(cells)}

    chance = random.Random(5)
    cells = [noise(chance, 60) for _ in range(20)]
    session = "sheet,t.csv\ninputs,1\nbegin\n" + adds([cells[0][5:45], cells[1][7:47]]) + "programs\nfill\n"
    yield "noise-40", "two examples of 40 random characters", REPLAY, {"s.csv": session, "t.csv": csv((it,) for it in cells)}
    chance = random.Random(6)
    cells = [noise(chance, 100) for _ in range(3)]
    session = "sheet,t.csv\ninputs,1\nbegin\n" + adds(cells[:2]) + "programs\n"
    yield "noise-100", "two examples of 100 random characters", REPLAY, {"s.csv": session, "t.csv": csv((it,) for it in cells)}


def long_sheet():
    """The same of a long sheet for `fillcsv`."""
    rows = people(400000, 8)
    fields = (f"{f}{m} {l},{c[:2]}{a},{l if row < 2 else ''}\n" for row, (f, m, l, c, a, _) in enumerate(rows))
    what = "a sheet of 400,000 rows (8 MB), two examples, most cells in doubt, `--state`, by `fillcsv`"
    return "long-sheet", what, ["t.csv", "--to", "Last", "--from", "Name", "--state"], {"t.csv": "Name,Code,Last\n" + "".join(fields)}
