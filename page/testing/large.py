"""Checks: large sheets follow what is typed, scroll to their end, and are filled as the program does it. The times are told."""
import csv
import io
import random

# From a key until the page has shown what follows: the time of each of the letters of a text that is typed into row 5
TYPING = """const times = [];
for (const letter of args[0]) {
    const field = document.querySelector('.editor');
    const began = performance.now();
    const seen = document.querySelector('.body').innerHTML;
    field.value += letter;
    field.dispatchEvent(new Event('input', { bubbles: true }));
    while (document.querySelector('.body').innerHTML === seen && performance.now() - began < 20000) await new Promise((done) => setTimeout(done, 1));
    times.push(performance.now() - began);
}
return times;"""

SCROLLING = """const grid = document.getElementById('grid');
const gaps = [];
let last = performance.now();
for (let at = 0; at < 120; at++) {
    grid.scrollTop = at * 5000;
    await new Promise(requestAnimationFrame);
    gaps.push(performance.now() - last);
    last = performance.now();
}
return gaps.sort((a, b) => a - b);"""


def made_sheet(path, rows):
    """A sheet of people, of which two have labels."""
    made = random.Random(1)
    first = "Ada Max Lise Emmy Carl Emil Sofia Ludwig Marie Niels Otto Hedy Alan Grace Kurt Paul".split()
    last = "Byron Planck Meitner Noether Gauss Artin Kowalewski Boltzmann Curie Bohr Hahn Lamarr Turing Hopper Gödel Erdős".split()
    cities = "London Kiel Graz Erlangen Kassel Hamburg Wien Rom Paris Bern".split()
    lines = ["Name,Mail,City,Label"]
    for row in range(rows):
        a, b, city = made.choice(first), made.choice(last), made.choice(cities)
        middle = made.choice(["", "", made.choice("ABCDE") + " "])
        lines.append(f"{a} {middle}{b},{a.lower()}@{b.lower()}.org,{city},{f'{b} ({city})' if row in (0, 2) else ''}")
    path.write_text("\n".join(lines) + "\n", encoding="utf-8")
    return path


def time_typing(trial, rows, text):
    """The times until the rows in view follow each letter, and of the whole fill, in milliseconds."""
    path = made_sheet(trial.folder / f"people-{rows}.csv", rows)
    trial.open_file(path)
    trial.pick(4, [1, 3])
    whole = trial.browser.run("return document.getElementById('time').textContent;")
    trial.go_to(5)
    trial.browser.press("F2")
    trial.browser.run("document.querySelector('.editor').value = '';")
    times = sorted(trial.browser.run(TYPING, text))
    trial.browser.press("Escape")
    trial.settle()
    return path, f"{whole}; after a letter the rows in view follow in {times[len(times) // 2]:.0f} ms (middle), {times[-1]:.0f} ms (longest)"


def thousand_rows(trial):
    """1,000 rows follow what is typed."""
    trial.start()
    path, told = time_typing(trial, 1000, "Byron (Kiel)")
    trial.compare(path)
    trial.is_clean()
    return told


def many_rows(trial):
    """19,999 rows follow what is typed, and scroll with few rows in the document."""
    trial.start()
    path, told = time_typing(trial, 19999, "Byron (Kiel)")
    frames = trial.browser.run(SCROLLING)
    rows = trial.browser.run("return document.querySelectorAll('.body .row').length;")
    assert rows < 100, rows
    trial.go_to(2)
    trial.browser.press("Control+Down")
    assert max(trial.shown()) == 20000, max(trial.shown())
    trial.compare(path)
    # it is filled in shares: what is shown at several places is what the program writes there
    wanted = list(csv.reader(io.StringIO(trial.by_program(trial.folder).decode())))
    for place in (0, 0.25, 0.5, 0.75, 1):
        trial.browser.run("const grid = document.getElementById('grid'); grid.scrollTop = grid.scrollHeight * args[0]; await new Promise(requestAnimationFrame); await new Promise(requestAnimationFrame);", place)
        shown = trial.shown()
        assert len(shown) > 10 and all(text == wanted[row - 1][3] for row, (text, _) in shown.items()), (place, shown)
    trial.is_clean()
    return f"{told}; a frame of scrolling {frames[len(frames) // 2]:.0f} ms (middle), {frames[-2]:.0f} ms; {rows} rows in the document"


def million_rows(trial):
    """1,000,000 rows open, scroll to their end by the bar and by keys, and are downloaded as the program writes them."""
    trial.start()
    path = trial.folder / "million.csv"
    path.write_text("Name,Out\n" + "".join(f"a{row} b{row},{f'b{row}' if row in (1, 2) else ''}\n" for row in range(1, 1_000_001)), encoding="utf-8")
    trial.open_file(path)
    assert trial.browser.run("return document.getElementById('file-size').textContent;") == "1,000,000 rows"
    trial.browser.run("const grid = document.getElementById('grid'); grid.scrollTop = grid.scrollHeight; await new Promise(requestAnimationFrame); await new Promise(requestAnimationFrame);")
    assert max(trial.shown()) == 1_000_001, max(trial.shown())
    trial.go_to(2)
    trial.browser.press("Control+Down")
    trial.settle()
    assert trial.active()[0] == 1_000_001, trial.active()
    trial.browser.press("Up")
    assert trial.active()[0] == 1_000_000 and trial.shown()[1_000_000][0] == "b999999", trial.active()
    size = trial.compare(path)
    return f"{trial.browser.run('return document.getElementById(`time`).textContent;')}, {size} bytes"
