"""Checks: the page in its forms, with either engine, as one file from the disk; and that nothing can leave it."""
import json
import pathlib
import shutil
import tempfile

from server import serve
from trial import Trial

PAGE = pathlib.Path(__file__).resolve().parent.parent
SHEET = "Name,City,Label\nAda Byron,London,Byron (London)\nMax Planck,Kiel,\nLise Meitner,Graz,\n"


def fills(trial):
    """Opens a sheet, types into it and downloads it: the bytes of the program."""
    path = trial.write("people.csv", SHEET)
    trial.open_file(path)
    assert trial.shown()[3][0] == "Planck (Kiel)", trial.shown()
    trial.type_into(2, "Byron, London")
    assert trial.shown()[4][0] == "Meitner, Graz", trial.shown()
    return trial.compare(path)


def engine_of_32_bits(trial):
    """The engine with addresses of 32 bits, which older browsers take, fills as the program does."""
    trial = Trial(trial.browser, f"{trial.address}#32", trial.programs)
    trial.start()
    size = fills(trial)
    loaded = trial.browser.run("return performance.getEntriesByType('resource').map((it) => it.name.split('/').pop()).filter((it) => it.endsWith('.wasm'));")
    assert loaded == ["engine32.wasm"], loaded
    return f"{size} bytes"


def one_file(trial):
    """flashfill.html, from the disk: it fills as the program does, and asks for nothing but what it made itself."""
    with tempfile.TemporaryDirectory() as folder:
        path = pathlib.Path(folder, "flashfill.html")
        shutil.copy(PAGE / "flashfill.html", path)
        trial = Trial(trial.browser, path.as_uri(), trial.programs).start()
        size = fills(trial)
        trial.is_clean()
        policy = trial.browser.run("return document.querySelector('meta[http-equiv]').content;")
        assert "default-src 'none'" in policy and "'self'" not in policy and "connect-src" not in policy, policy
    return f"{path.name} of {(PAGE / path.name).stat().st_size} bytes, {size} bytes filled"


def nothing_leaves(trial):
    """The page's policy holds for its workers too: a worker that would send a cell elsewhere cannot, in a folder and as one file."""
    other, asked = serve(PAGE / "pictures")
    spy = f'fetch("{other}/secret").catch(() => {{}}); try {{ importScripts("{other}/secret.js"); }} catch {{ }}\n'
    with tempfile.TemporaryDirectory() as place:
        folder = pathlib.Path(place, "page")
        shutil.copytree(PAGE, folder, ignore=shutil.ignore_patterns("out", "testing", "pictures", "__pycache__"))
        worker = folder / "scripts" / "worker.js"
        text = worker.read_text(encoding="utf-8")
        head, rest = text.split("\n\n", 1)
        worker.write_text(f"{head}\n\n{spy}{rest}", encoding="utf-8")
        base, own = serve(folder)
        Trial(trial.browser, f"{base}/index.html", {}).start()
        assert "/scripts/worker.js" in own, own
        html = (folder / "flashfill.html").read_text(encoding="utf-8") if (folder / "flashfill.html").exists() else None
        if html:
            one = folder / "one.html"
            one.write_text(html.replace('<script type="text/plain" id="worker-script">', f'<script type="text/plain" id="worker-script">{spy}'), encoding="utf-8")
            Trial(trial.browser, one.as_uri(), {}).start()
    assert not asked, asked
    return "tried by a worker, in both forms" if html else "tried by a worker"


def says_what_is_proved(trial):
    """A page with an engine that is not proved says so, and one with a proved engine does not."""
    built = json.loads((PAGE / "built.json").read_text(encoding="utf-8"))
    trial.start()
    is_told = trial.browser.run("return !document.getElementById('unproved').hidden;")
    assert is_told != built["isProved"], (is_told, built)
    return "not proved" if is_told else "proved"
