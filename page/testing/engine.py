"""Checks: the engine in the browser answers as the programs do, byte for byte."""
import base64
import gzip
import importlib.machinery
import importlib.util
import pathlib
import random
import subprocess
import tempfile

from filling import EXAMPLES

CASES = pathlib.Path(__file__).resolve().parent.parent.parent / "tests" / "cases"
# so many cases go to the browser at once
SOME = 20

RUN = """const { Engine } = await import(args[0] + '/scripts/engine.js');
const { loadModule } = await import(args[0] + '/scripts/parts.js');
window.testEngine ??= new Engine(await loadModule());
const bytes = async (text) => new Uint8Array(await new Response(new Blob([Uint8Array.from(atob(text), (it) => it.charCodeAt(0))]).stream().pipeThrough(new DecompressionStream('gzip'))).arrayBuffer());
const text = (them) => { let made = ''; for (const it of them) made += String.fromCharCode(it); return btoa(made); };
const answers = [];
for (const { program, words, files } of args[1]) {
    const held = new Map();
    for (const [name, it] of Object.entries(files)) held.set(name, await bytes(it));
    const answer = window.testEngine.run(program, words, held);
    answers.push([answer.status, text(answer.out), text(answer.err)]);
}
return answers;"""


def engine_answers(trial, requests):
    """The engine's answers in the browser: status, output and errors of each request."""
    answers = trial.browser.run(RUN, trial.address.rsplit("/", 1)[0], requests)
    return [(status, base64.b64decode(out), base64.b64decode(err)) for status, out, err in answers]


def request(words, files):
    return {"program": "flashfill", "words": words, "files": {name: base64.b64encode(gzip.compress(it, 1)).decode() for name, it in files.items()}}


def reports(trial):
    """The sessions of examples/ have the stored reports, and random changes of them those of the program."""
    trial.start()
    files = {it.name: it.read_bytes() for it in EXAMPLES.glob("*.csv")}
    sessions = sorted(it for it in files if it.endswith("-session.csv"))
    answers = engine_answers(trial, [request(["replay", it], files) for it in sessions])
    for name, (status, out, _) in zip(sessions, answers):
        assert out == files[name.replace("-session", "-report")], name
        assert status <= 1, status
    made = random.Random(1)
    asked = []
    for _ in range(60):
        name = made.choice(sessions)
        changed = dict(files)
        part = bytearray(changed[name])
        for _ in range(made.randrange(1, 4)):
            part[made.randrange(len(part))] = made.choice(b',"\n 01aZ')
        changed[name] = bytes(part)
        asked.append((["replay", name], changed))
    answers = engine_answers(trial, [request(*it) for it in asked])
    for (words, changed), answer in zip(asked, answers):
        with tempfile.TemporaryDirectory() as folder:
            for name, data in changed.items():
                pathlib.Path(folder, name).write_bytes(data)
            ran = subprocess.run([trial.programs["flashfill"], *words], cwd=folder, stdin=subprocess.DEVNULL, capture_output=True, timeout=300)
        assert answer == (ran.returncode, ran.stdout, ran.stderr), (words, changed[words[1]], answer, ran)
    trial.is_clean()
    return f"{len(sessions)} reports and {len(asked)} changed sessions"


def sections_of(case):
    """The sections of a case, as the script beside the cases reads them."""
    loader = importlib.machinery.SourceFileLoader("cases", str(CASES / "run"))
    module = importlib.util.module_from_spec(importlib.util.spec_from_loader("cases", loader))
    loader.exec_module(module)
    return module.sections(case)


def known_cases(trial):
    """The known cases of flashfill, as they are written down."""
    trial.start()
    wrong, count = [], 0
    paths = sorted(CASES.glob("*.txtar"))
    for at in range(0, len(paths), SOME):
        named, asked, wanted = [], [], []
        for path in paths[at:at + SOME]:
            files = sections_of(path)
            expected = [files.pop(it, b"") for it in ("status", "output", "line")]
            try:
                words = files.pop("words").decode().split("\n")[:-1]
            except UnicodeDecodeError:
                continue  # no words of a request
            named.append(path.stem)
            asked.append(request(words, files))
            wanted.append((int(expected[0]), *expected[1:]))
        answers = engine_answers(trial, asked)
        wrong += [name for name, answer, want in zip(named, answers, wanted) if answer != want]
        count += len(named)
    assert not wrong, f"{len(wrong)} of {count} differ: {wrong}"
    return f"{count} cases"
