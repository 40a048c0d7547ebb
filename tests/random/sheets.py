"""Random sheets for `fillcsv`: for a seed a case, whose words are made here too."""
from filled import Case
from language import DIGITS, LOWER, SPACE, UPPER
from sessions import Maker

HEADER = ["Name", "City", "a b", "Größe", "x,y", "Code"]


def case(seed):
    """The case of a seed."""
    maker = Maker(f"sheet {seed}")
    maker.separators = False
    maker.profile = maker.pick(1, 2, 3, 3, 3, 3)
    maker.depth = maker.pick(1, 1, 1, 2, 3) if maker.profile > 1 else maker.pick(1, 1, 2)
    table_lines = maker.make_world()
    world = maker.world
    maker.hidden = [maker.good_program() for _ in range(maker.pick(1, 1, 2))]
    if maker.lead:
        maker.hidden[0] = maker.lead
    maker.split = maker.pick(*world.inputs), maker.pick(DIGITS, UPPER, LOWER, SPACE)
    made = Case(profile=maker.profile, depth=maker.depth, inputs=world.inputs)
    made.header = maker.chance(0.85)
    width = max([len(it) for it in world.rows] + world.inputs)
    new = maker.chance(0.25)
    if new:
        made.new, made.column = "new one", width + 1
    elif world.output:
        made.column = world.output
    else:
        width += 1
        made.column = width
    names = [HEADER[at] if maker.chance(0.9) else f"c{at}" for at in range(width)]
    rows = [it + [""] * (width - len(it)) for it in world.rows]
    many = maker.chance(0.03)
    if many:
        rows = [list(maker.pick(*rows)) for _ in range(70)]
        world.rows = rows
    for row, fields in enumerate(rows):
        if not new and maker.chance(0.95 if many else 0.3):
            fields[made.column - 1] = maker.wanted(row)
    for row in range(len(rows)):
        if maker.chance(0.25 if new else 0.08):
            made.typed[row + 1] = maker.wanted(row)
    sheet = ([names] if made.header else []) + [it[: maker.random.randint(1, width)] if maker.chance(0.05) else it for it in rows]
    made.sheet = maker.csv(sheet)
    others = [[maker.cell() if at + 1 in world.inputs else "" for at in range(width)] for _ in range(maker.random.randint(0, 6))]
    if not new:
        for fields in others:
            fields[made.column - 1] = maker.pick("", "", "", "kept")
    made.other = maker.csv(([names] if made.header else []) + others)
    for line in table_lines:
        if line[0] == "table":
            made.tables.append((line[1], line[2]))
        else:
            made.keys.append((line[1], [int(it) for it in line[2:]]))
    made.files = {it["name"] + ".csv": maker.csv(it["raw"]) for it in world.tables}
    made.state, made.only_sure, made.strict = maker.chance(0.5), maker.chance(0.2), maker.chance(0.2)
    made.explain, made.save = maker.chance(0.2), maker.chance(0.4)
    kind = maker.random.random()
    made.ask, made.quiet, made.piped = kind < 0.35, 0.35 <= kind < 0.5, 0.45 <= kind < 0.6
    made.replace = not new and bool(made.typed or made.ask) and maker.chance(0.15)
    if made.ask:
        replies = [maker.pick("", "", "", "2", "2", "2", "-", "s", "u", "q", "=2", "=", maker.word(3), maker.wanted(maker.random.randrange(len(rows)))) for _ in range(maker.random.randint(0, 7))]
        made.replies = [it.encode() + maker.pick(b"", b"", b"", b"\r") for it in replies]
        if maker.chance(0.05):
            made.replies.insert(0, b"\xff")
    made.words = words(maker, made, names)
    return made


def column(maker, made, names, number):
    """A word for a column: its name, where only this column has it, or its number."""
    name = names[number - 1]
    named = made.header and names.count(name) == 1 and "," not in name
    return name if named and maker.chance(0.6) else str(number)


def words(maker, made, names):
    """The words for a case."""
    said = ["-" if made.piped else "sheet.csv"]
    said += ["--new", made.new] if made.new else ["--to", column(maker, made, names, made.column)]
    others = [it for it in range(1, len(names) + 1) if it != made.column]
    if made.inputs != others[:8] or maker.chance(0.5):
        said += ["--from", ",".join(column(maker, made, names, it) for it in maker.random.sample(made.inputs, len(made.inputs)))]
    above = 1 if made.header else 0
    for row, text in made.typed.items():
        said += ["--example", f"{row + above}={text}"]
    for name, file in made.tables:
        said += ["--table", f"{name}={file}"]
    for name, columns in made.keys:
        said += ["--key", f"{name}:{','.join(map(str, columns))}"]
    said += ["--depth", str(made.depth)] if made.depth != 1 or maker.chance(0.2) else []
    said += ["--profile", str(made.profile)] if made.profile != 3 or maker.chance(0.2) else []
    for word, asked in [
        ("--no-header", not made.header),
        ("--replace", made.replace),
        ("--state", made.state),
        ("--strict", made.strict),
        ("--quiet", made.quiet),
        ("--explain", made.explain),
        ("--ask", made.ask),
    ]:
        said += [word] if asked else []
    said += ["--only", "sure"] if made.only_sure else []
    return said + ([maker.pick("--save-rule", "--save"), "saved.rule"] if made.save else [])
