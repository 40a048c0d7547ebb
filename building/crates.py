"""The crates of this repository, and which of them are proved from the sources that stand there now."""
import hashlib
import os
import sys

ROOT = os.path.dirname(os.path.dirname(os.path.realpath(__file__)))
OUT = f"{ROOT}/out"
ROOMS = f"{OUT}/rooms"
LOGS = f"{OUT}/logs"
PARTS = ("src", "specs", "proofs")
MEMORY = 2 << 30  # bytes that one proof is given

# About how many processor seconds a crate takes: from times measured side by side on a busy machine, scaled, so only
# their relation counts. Of a crate that is not listed its lines tell.
SECONDS = {
    "fill_text": 70, "fill_edge": 90, "fill_records": 35, "fill_sheet": 65, "fill_tables": 120, "fill_keys": 35,
    "fill_tokens": 90, "fill_spans": 40, "fill_places": 110, "fill_shapes": 40, "fill_tree": 95, "fill_undo": 35,
    "fill_eval": 65, "fill_pool": 55, "fill_arena": 205, "fill_reach": 70, "fill_guard": 67, "fill_trim": 35,
    "fill_rank": 120, "fill_best": 155, "fill_object": 185, "fill_meet": 340, "fill_doubt": 325, "fill_split": 130,
    "fill_print": 220, "fill_sources": 225, "fill_build": 110, "fill_space": 150, "fill_session": 290,
    "fill_script": 85, "fill_report": 200, "fill_apply": 45, "fill_open": 145, "fill_command": 240, "fill_engine": 60,
}


def say(program, text):
    print(f"{program}: {text}", file=sys.stderr, flush=True)


def give_up(program, text, status=1):
    say(program, text)
    sys.exit(status)


def read_crates():
    """The lines of crates.txt, by crate."""
    lines = {}
    with open(f"{ROOT}/crates.txt", encoding="utf-8") as file:
        for line in file:
            line = line.partition("#")[0].strip()
            if line:
                lines[line.partition(":")[0].split()[0]] = line
    return lines


LINES = read_crates()


def folder(crate):
    return f"{ROOT}/crates/{crate}"


def is_static(crate):
    """Whether the crate is a static library, for other languages."""
    return LINES[crate].partition(":")[0].split()[1:] == ["staticlib"]


def below(crate):
    """The crates of this repository that a crate uses itself."""
    return [it for it in LINES[crate].partition(":")[2].split() if it in LINES]


def closure(crate, found=None):
    """A crate and all that it stands on, lowest first."""
    found = [] if found is None else found
    for it in below(crate):
        if it not in found:
            closure(it, found)
    if crate not in found:
        found.append(crate)
    return found


def files(crate):
    """The sources of a crate, in a fixed order."""
    for part in PARTS:
        for at, folders, names in os.walk(f"{folder(crate)}/{part}"):
            folders.sort()
            yield from (f"{at}/{name}" for name in sorted(names))


def own_sources(crate):
    digest = hashlib.sha256(f"{LINES[crate]}\n".encode())
    for path in files(crate):
        with open(path, "rb") as file:
            text = file.read()
        digest.update(f"{path[len(ROOT):]} {len(text)}\n".encode())
        digest.update(text)
    return digest.hexdigest()


def sources(crate, read=None):
    """One number for all that a crate is proved from: its sources, and those of all below it. What `read` has of single
    crates is not read again."""
    read = {} if read is None else read
    for it in closure(crate):
        if it not in read:
            read[it] = own_sources(it)
    return hashlib.sha256(" ".join(f"{it} {read[it]}" for it in sorted(closure(crate))).encode()).hexdigest()


def seconds(crate):
    """About how long a crate takes on one processor."""
    if crate in SECONDS:
        return SECONDS[crate]
    lines = 0
    for path in files(crate):
        with open(path, "rb") as file:
            lines += file.read().count(b"\n")
    return 20 + lines / 25


def text_of(path):
    try:
        with open(path, encoding="utf-8") as file:
            return file.read()
    except OSError:
        return None


def write(path, text):
    """Writes a small file whole, or not at all."""
    with open(f"{path}.new", "w", encoding="utf-8") as file:
        file.write(text)
    os.replace(f"{path}.new", path)


# What is proved

def binary(program):
    return f"{folder(program)}/out/" + (f"lib{program}.a" if is_static(program) else program)


def bitcode(library):
    """LLVM's bitcode of a static library, of which page/build makes WebAssembly."""
    return f"{folder(library)}/out/{library}.bc"


def stamp(program):
    """What is written down of a program that was proved: its sources and its binary."""
    with open(binary(program), "rb") as file:
        return f"{sources(program)} {hashlib.sha256(file.read()).hexdigest()}\n"


def is_proved(program):
    told = text_of(f"{binary(program)}.proved")
    whole = os.path.exists(binary(program)) and (not is_static(program) or os.path.exists(bitcode(program)))
    return told is not None and whole and told == stamp(program)


def record(crate):
    """The file that tells from which sources the library in out/ was proved."""
    return f"{folder(crate)}/out/proved-from"


def is_library_proved(crate, read):
    return os.path.isdir(f"{folder(crate)}/out/rlib") and text_of(record(crate)) == sources(crate, read)
