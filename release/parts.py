"""What a release has beside the programs: the Python wheel, the extension for LibreOffice, and the page as one file."""
import glob
import json
import os
import shutil
import subprocess
import sys

from building.crates import binary, is_proved
from release.told import ROOT

LIBRARY = f"{ROOT}/embed/out/libflashfill.so"


class LeftOut(Exception):
    """Why a part is not there."""


def is_of_engine(path):
    """Whether a file was made after the engine was proved from the sources that stand here."""
    if not os.path.exists(path) or not is_proved("fill_engine"):
        return False
    return os.path.getmtime(path) > os.path.getmtime(f"{binary('fill_engine')}.proved")


def proved_library():
    """The engine's library, if it is made of the proved engine."""
    return LIBRARY if is_of_engine(LIBRARY) else None


def run(words, **more):
    """Runs a command to its end, and shows what it tells where it fails."""
    env = {**os.environ, **more}
    ran = subprocess.run(words, cwd=ROOT, env=env, stdin=subprocess.DEVNULL, stdout=subprocess.PIPE, stderr=subprocess.STDOUT, check=False)
    if ran.returncode:
        sys.stderr.buffer.write(ran.stdout)
        raise SystemExit(f"release: {' '.join(words)} ended with status {ran.returncode}")


def python_with(*modules):
    """A Python that has these modules."""
    for it in (sys.executable, "/usr/bin/python3"):
        words = [it, "-c", "import importlib.util, sys; sys.exit(not all(map(importlib.util.find_spec, sys.argv[1:])))", *modules]
        if os.path.exists(it) and subprocess.run(words, stdin=subprocess.DEVNULL, stderr=subprocess.DEVNULL, check=False).returncode == 0:
            return it
    raise LeftOut(f"no Python here has {', '.join(modules)}")


def expect(path, library):
    if not os.path.exists(f"{ROOT}/{path}"):
        raise LeftOut(f"there is no {path}")
    if library is None:
        raise LeftOut("embed/build has not made the library of the proved engine")


def make_wheel(library, out):
    """The package for Python, with the library in it."""
    expect("embed/python/pyproject.toml", library)
    python = python_with("pip", "setuptools", "wheel")
    words = ["-m", "pip", "wheel", "embed/python", "--no-build-isolation", "--no-deps", "--no-index", "--quiet", "--wheel-dir", out]
    run([python, *words], FLASHFILL_LIBRARY=library)


def make_extension(library, out):
    """The extension for LibreOffice, with the library in it."""
    expect("calc/build", library)
    run(["calc/build"], LIBRARY=library)
    shutil.copy(f"{ROOT}/calc/out/fill-by-example.oxt", out)


def take_page(_library, out):
    """The page as one file: it takes minutes to make, so it is taken if it stands there."""
    page, built = f"{ROOT}/page/flashfill.html", f"{ROOT}/page/built.json"
    if not is_of_engine(page):
        raise LeftOut("page/build has not made flashfill.html of the proved engine")
    if os.path.exists(built):
        with open(built, encoding="utf-8") as file:
            if not json.load(file).get("isProved"):
                raise LeftOut("page/build has made flashfill.html of another engine")
    shutil.copy(page, out)


PARTS = {"the Python wheel": make_wheel, "the extension for LibreOffice": make_extension, "the page as one file": take_page}


def add_parts(library, out, mark, say):
    """Puts all parts into a folder, with a mark in their names; what is left out is told."""
    for what, make in PARTS.items():
        before = set(glob.glob(f"{out}/*"))
        try:
            make(library, out)
        except LeftOut as why:
            say(f"without {what}: {why}")
            continue
        for it in set(glob.glob(f"{out}/*")) - before:
            os.rename(it, marked(it, mark))


def marked(path, mark):
    """A path with a mark: in a wheel's name the build, which begins with a digit, stands after the version."""
    folder, name = os.path.split(path)
    if not mark:
        return path
    if name.endswith(".whl"):
        parts = name.split("-")
        return f"{folder}/{'-'.join([*parts[:2], f'0{mark[1:]}', *parts[2:]])}"
    stem, ending = os.path.splitext(name)
    return f"{folder}/{stem}{mark}{ending}"
