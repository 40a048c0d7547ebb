"""Random sessions: for a seed the words of `flashfill` and the files that they name. Most texts of examples are values of
hidden programs, so branches, guards, doubt and objectors come up; some lines and bytes are spoiled."""
import maker
from language import DIGITS, END, LOWER, START, World, is_in, show_program, show_tokens


class Maker(maker.Maker):
    """Makes one session."""

    def table(self, name, rows):
        """A table of some rows, each of which may be cut short."""
        width = max(map(len, rows), default=0)
        raw = [it[: self.random.randint(1, len(it))] if self.chance(0.1) else it for it in rows]
        width = max(map(len, raw), default=0)
        return {"name": name, "raw": raw, "rows": [it + [""] * (width - len(it)) for it in raw], "width": width, "keys": [], "first": None}

    def some_table(self, name):
        world, width = self.world, self.random.randint(1, 4)
        cells = [world.cell(row, it) for row in range(len(world.rows)) for it in world.inputs] or ["a"]
        if self.chance(0.65):
            # keyed by what an atom gives on the rows, or by cells of a table before
            keys = set()
            for _ in range(20):
                before = self.pick(*world.tables) if world.tables and self.chance(0.5) else None
                if before and before["width"]:
                    column = self.random.randrange(before["width"])
                    keys = {it[column] for it in before["rows"]}
                else:
                    atom = self.part(0)
                    keys = {world.atom(atom, row) for row in range(len(world.rows))} - {None}
                if len(keys) > 1:
                    break
            keys = sorted(keys)[:14]
            self.random.shuffle(keys)
            two = self.chance(0.3)
            word = lambda: self.pick("Mon", "Tues", "Wed", "Fri", "x", "North", "B-7", "") + self.word(4)
            rows = [[key, *more, *(word() for _ in range(max(1, width - 1)))] for key in keys for more in ([["p"], ["q"]] if two else [[]])]
            table = self.table(name, rows)
            table.update(raw=rows, rows=rows, width=max(map(len, rows), default=0), first=[1, 2] if two else [1])
            return table

        def piece():
            cell = self.pick(*cells)
            if not cell or self.chance(0.2):
                return self.word(2)
            at = self.random.randrange(len(cell))
            return cell[at : at + self.random.randint(1, 3)]

        many = self.random.randint(0, 6) if self.length < 10 else self.random.randint(2, 12)
        rows = [[piece() if self.chance(0.6) else self.word(3) for _ in range(width)] for _ in range(many)]
        kept = [it for at, it in enumerate(rows) if it[0] not in [other[0] for other in rows[:at]] or self.chance(0.2)]
        return self.table(name, kept)

    def chain(self):
        """Tables each of which is keyed by cells of the one before, and the atom that goes through all of them."""
        rows = range(len(self.world.rows))
        atoms = [self.part(0) for _ in range(12)]
        atom = max(atoms, key=lambda it: len({self.world.atom(it, row) for row in rows}))
        keys = sorted({self.world.atom(atom, row) for row in rows} - {None})[:12]
        for number in range(1, self.depth + (1 if self.chance(0.8) else 0)):
            third = self.chance(0.4)
            cells = [self.pick("Mon", "Tues", "Rd", "K-", "é") + self.word(3) + (str(at) if self.chance(0.8) else "") for at in range(len(keys))]
            lines = [[key, *(["u"] if third else []), cell] for key, cell in zip(keys, cells)]
            self.random.shuffle(lines)
            table = self.table(f"t{number}", lines)
            table.update(raw=lines, rows=lines, width=max(map(len, lines), default=0), first=[2, 1] if third and self.chance(0.5) else [1])
            self.world.tables.append(table)
            conditions = [atom] if table["first"] == [1] else [("Const", "u"), atom]
            source = ("Select", 3 if third else 2, number, 1, conditions)
            whole = self.chance(0.7)
            atom = ("Whole", source) if whole else ("Sub", source, ("CPos", 0), ("CPos", 3))
            keys = sorted(set(cells if whole else [it[:3] for it in cells]) - {""})
        return atom

    def make_world(self):
        """The sheet and its tables; the lines of the tables are told."""
        has_output = self.chance(0.35)
        inputs = self.pick(1, 1, 1, 2, 2, 3)
        columns = self.random.sample(range(1, inputs + 3), inputs + has_output)
        output = columns.pop() if has_output else None
        width = max([*columns, output or 1])
        few, many = {"tiny": (1, 6), "small": (1, 9), "mid": (3, 12), "big": (20, 200)}[self.size]
        rows = []
        for _ in range(self.random.randint(few, many)):
            if rows and self.chance(0.1):
                rows.append(list(self.pick(*rows)))
            else:
                rows.append([self.cell() if it in columns else self.word(2) if self.chance(0.2) and it != output else "" for it in range(1, width + 1)])
        self.world = World(rows, sorted(columns), output)
        self.lead = None
        if self.depth >= 2 and self.chance(0.6):
            self.lead = [self.chain()] if self.chance(0.7) else [self.chain(), self.part(0)]
        elif self.depth and self.chance(0.65):
            for number in range(1, 1 + self.pick(1, 1, 2, 3)):
                self.world.tables.append(self.some_table(f"t{number}"))
        lines = []
        for table in self.world.tables:
            lines.append(["table", table["name"], table["name"] + ".csv"])
            for at in range(max(self.pick(0, 1, 1, 1, 2, 3), 1 if self.lead else 0) if table["width"] else 0):
                most = min(table["width"], self.pick(1, 1, 1, 2, 2, 3))
                columns = table["first"] if at == 0 and table["first"] else self.random.sample(range(1, table["width"] + 1), most)
                keys = [tuple(it[c - 1] for c in columns) for it in table["rows"]]
                if len(set(keys)) == len(keys) or self.chance(0.01):
                    table["keys"].append(columns)
                    lines.append(["key", table["name"], *map(str, columns)])
        return lines

    def wanted(self, row):
        """The text of an example: mostly the value of a hidden program."""
        if self.chance(0.04):
            return self.word(4)
        if self.chance(0.02):
            return ""
        column, token = self.split
        lead = self.hidden[len(self.hidden) > 1 and any(is_in(token, c) for c in self.world.cell(row, column))]
        text = self.world.value(lead if self.chance(0.92) else self.pick(*self.hidden), row)
        if text is None:
            text = self.world.value(self.hidden[-1], row)
        if text is None:
            return self.word(3)
        return text[: 101 if self.chance(0.02) else 60]

    def edits(self):
        world, count = self.world, len(self.world.rows)
        have = {row for row in range(count) if world.output and world.rows[row][world.output - 1]}
        lines = []

        def some_row(rows, miss):
            """The number of one of some rows, and sometimes of another one or of none."""
            if rows and not self.chance(miss):
                return self.pick(*sorted(rows)) + 1
            return self.random.randint(1, count) if count and not self.chance(0.03) else self.pick(0, count + 1, 4294967295)

        for _ in range(self.random.randint(2, 14)):
            kind = self.random.random()
            if kind < 0.62:
                adds = kind < 0.5
                row = some_row(set(range(count)) - have if adds else have, 0.08)
                text = self.wanted(row - 1) if 1 <= row <= count else "x"
                if self.chance(0.01):
                    text = "y" * self.pick(100, 101)
                lines.append(["add" if adds else "correct", str(row), text])
                have |= {row - 1} if adds else set()
            elif kind < 0.70:
                row = some_row(have, 0.1)
                lines.append(["retract", str(row)])
                have.discard(row - 1)
            elif kind < 0.72:
                lines.append(["clear"])
                have.clear()
            elif kind < 0.81:
                lines.append(["undo" if kind < 0.78 else "redo"])
            for _ in range(self.pick(0, 0, 1, 1, 2)):
                ask = self.pick("programs", "switch", "fill", "count", "answer", "best", "object")
                more = [str(self.pick(1, 1, 1, 2, 3, 0, 9)), str(self.pick(1, 2, 3, 5, 20))] if ask == "best" else []
                lines.append([ask, *more, *([str(some_row(set(), 0))] if ask in ("answer", "object") else [])])
        lines += [["programs"], ["fill"], ["count"], ["switch"], ["best", "1", "20"]]
        return lines + [["object", str(row)] for row in range(1, min(count, 4) + 1)]

    def replay(self):
        """The files of a session over some sheet."""
        table_lines = self.make_world()
        world = self.world
        self.hidden = [self.good_program() for _ in range(self.pick(1, 1, 2, 2, 3))]
        if self.lead:
            self.hidden[0] = self.lead
        self.split = self.pick(*world.inputs), self.pick(DIGITS, 4, LOWER, 8)
        for row in range(len(world.rows)):
            if world.output and self.chance(0.3):
                world.rows[row][world.output - 1] = self.wanted(row)
        raw = [it[: self.random.randint(1, len(it))] if self.chance(0.03) else it for it in world.rows]
        world.rows = [it + [""] * (len(whole) - len(it)) for it, whole in zip(raw, world.rows)]
        header = self.chance(0.2)
        lines = [["sheet", "sheet.csv"], ["inputs", *map(str, self.random.sample(world.inputs, len(world.inputs)))]]
        lines += [["header"]] * header + ([["output", str(world.output)]] if world.output else [])
        if self.depth != 1 or self.chance(0.3):
            lines.append(["depth", str(self.depth)])
        if self.separators or self.chance(0.1):
            lines.append(["constants", "separators" if self.separators else "any"])
        self.random.shuffle(lines)
        if self.profile == 2 or self.chance(0.1):
            lines.insert(0, ["profile", str(self.profile)])
        at = [self.random.randint(1, len(lines)) if self.chance(0.3) else len(lines) for _ in table_lines]
        for place, line in sorted(zip(at, range(len(table_lines))), reverse=True):
            lines.insert(place, table_lines[sorted(range(len(at)), key=at.__getitem__).index(line)])
        lines += [["begin"], *self.edits()]
        if self.chance(0.03):
            self.spoil(lines)
        files = {"s.csv": self.csv(lines), "sheet.csv": self.csv(([["h1", "h2", "h3"]] if header else []) + raw)}
        files.update((it["name"] + ".csv", self.csv(it["raw"])) for it in world.tables)
        if self.chance(0.01):
            del files[self.pick(*sorted(files))]
        return files

    def many_kinds(self):
        """A session with many branches, and with more edits than can be undone."""
        pool = [*"-.;:/_@#&%+$(", "k", "Z", "7", " ", "é", "中", "'", "k7", "Z-", "- -", "\\"]
        count, plain = self.random.randint(6, 16), self.chance(0.4)
        cells = self.random.sample("-.;:/_@#&%+$(),", min(count, 13)) if plain else self.random.sample(pool, count)
        letters = "abcdefghijklm"[: self.pick(3, 13)]

        def text(row):
            if plain and self.chance(0.9):
                return chr(ord("a") + row)
            return cells[row] if self.chance(0.25) else self.pick(*letters)

        rows = self.random.sample(range(len(cells)), len(cells)) if self.chance(0.5) else range(len(cells))
        lines = [["sheet", "sheet.csv"], ["inputs", "1"], ["profile", str(self.profile)], ["begin"]]
        lines += [["add", str(row + 1), text(row)] for row in rows]
        for _ in range(self.pick(3, 8, 40)):
            row, kind = self.random.randrange(len(cells)), self.random.random()
            word = "correct" if kind < 0.6 else "retract" if kind < 0.75 else "add" if kind < 0.95 else "clear"
            lines.append([word, str(row + 1), text(row)][: {"retract": 2, "clear": 1}.get(word, 3)])
        if self.chance(0.7):
            lines += [["undo"]] * self.pick(3, 34) + [["programs"]] + [["redo"]] * self.pick(1, 2, 34) + [["count"]]
            if self.chance(0.5):
                lines += [["add", "1", "q"], ["retract", "1"], ["redo"], ["undo"]]
        lines += [["programs"], ["fill"], ["count"], ["switch"]]
        return {"s.csv": self.csv(lines), "sheet.csv": self.csv([[it] for it in cells])}

    def spoil(self, lines):
        """Takes away, doubles, exchanges or changes some line."""
        for _ in range(self.pick(1, 1, 2)):
            at, other = self.random.randrange(len(lines)), self.random.randrange(len(lines))
            line = list(lines[at])
            strange = self.pick("", "0", "01", "-1", "+1", " 1", "4294967296", "4294967295", "1001", "x", "3")
            lines[at : at + 1] = self.pick([], [line, line], [line + [self.word(2)]], [line[:-1] + [strange]], [line[:-1] or ["x"]], [list(lines[other])])
            if not lines:
                lines.append(["begin"])

    def switch(self):
        """A conditional program in its notation."""

        def literal():
            while True:
                tokens = self.tokens(self.chance(0.5))
                if 1 <= len(tokens) <= 2 and START not in tokens[1:] and END not in tokens[:-1]:
                    break
            column = self.pick(*self.world.inputs) if not self.chance(0.03) else self.pick(1, 2, 3, 77)
            return f"{self.pick('', '', '!')}Match({column},{show_tokens(tokens)},{self.random.randint(1, 3)})"

        text = "Switch("
        for _ in range(self.pick(0, 0, 1, 1, 2, 3, 7)):
            text += literal() + (f"&{literal()}" if self.chance(0.3) else "") + f"=>{show_program(self.program())};"
        return text + f"else=>{show_program(self.program())})"

    def apply(self):
        """The files of a session, a report with a conditional program whose bytes may be spoiled, and another sheet."""
        files = self.replay()
        text = bytearray(self.switch().encode())
        for _ in range(self.pick(0, 0, 0, 1, 1, 2)):
            at = self.random.randrange(len(text) + 1)
            byte = self.random.choice(b"()[],'0123456789-abcSEPWs &!=>;\\\xc3\xe2\xed\xf4\x80\xa9\xff ")
            text[at : at + self.pick(0, 1, 1, 10000)] = self.pick(b"", bytes([byte]), bytes([byte]))
        report = self.pick(b"", b"", b"ok,add,1\n", b"switch,x\n", b"switch,Switch(else=>Concat()),z\n")
        report += b'switch,"' + bytes(text).replace(b'"', b'""') + b'"\n' + self.pick(b"", b"", b"switch,a,b\n", b"row,1,switch\n")
        files["p.csv"] = report + (b"switch,\n" if self.chance(0.05) else b"")
        width = max(self.world.inputs)
        files["other.csv"] = self.csv([[self.cell() for _ in range(self.random.randint(1, width))] for _ in range(self.random.randint(0, 6))])
        return files


def session(seed, size=None):
    """The words and the files of a seed."""
    maker = Maker(f"session {seed}", size)
    kind = maker.random.random()
    if kind < 0.06:
        return ["replay", "s.csv"], maker.many_kinds()
    if kind < 0.88:
        return ["replay", "s.csv"], maker.replay()
    if kind < 0.96:
        return ["apply", "s.csv", "p.csv", "other.csv"], maker.apply()
    if kind < 0.99:
        rows = [[maker.word(1, "ab") for _ in range(maker.random.randint(1, 6))] for _ in range(maker.random.randint(0, 7))]
        return ["keys", "k.csv"], {"k.csv": maker.csv(rows)}
    made = ["made", str(maker.random.randint(1, 60))]
    return maker.pick(made, ["made", "007"], ["replay", ""], ["replay"], ["keys", "a", "b"], ["apply", "s", "p"], ["made", "+5"], ["fill"]), {}
