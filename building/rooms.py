"""Libraries, each proved in a room: a folder with hard links to its sources and to the libraries below it."""
import glob
import os
import shutil
import time

from building.crates import LINES, PARTS, ROOMS, closure, folder, record, sources, write
from building.runs import log_of, start


def link(source, target):
    try:
        os.link(source, target)
    except OSError:  # a file system without hard links
        shutil.copy2(source, target)


def make_room(crate):
    """A folder with the crate and the libraries below it. What checks of the crate kept, its out/, moves there."""
    room = f"{ROOMS}/{crate}"
    shutil.rmtree(room, ignore_errors=True)
    needed = closure(crate)
    for it in needed:
        parts = PARTS if it == crate else (*PARTS, "out/rlib")
        for part in parts:
            if os.path.isdir(f"{folder(it)}/{part}"):
                shutil.copytree(f"{folder(it)}/{part}", f"{room}/crates/{it}/{part}", copy_function=link)
    write(f"{room}/crates.txt", "".join(f"{LINES[it]}\n" for it in needed))
    if os.path.isdir(f"{folder(crate)}/out"):
        os.rename(f"{folder(crate)}/out", f"{room}/crates/{crate}/out")
    return f"{room}/crates/{crate}"


def clear_room(crate):
    """Moves what was proved in a room back to the crate, and takes the room away."""
    kept = f"{ROOMS}/{crate}/crates/{crate}/out"
    if os.path.isdir(kept):
        shutil.rmtree(f"{folder(crate)}/out", ignore_errors=True)
        os.rename(kept, f"{folder(crate)}/out")
    shutil.rmtree(f"{ROOMS}/{crate}", ignore_errors=True)


def clear_rooms():
    for room in glob.glob(f"{ROOMS}/*"):
        clear_room(os.path.basename(room))


class Proof:
    """A run of `rt lib` in a room."""

    def __init__(self, crate, jobs, held):
        self.crate, self.jobs, self.began = crate, jobs, time.monotonic()
        self.sources = sources(crate)
        room = make_room(crate)
        if os.path.exists(f"{room}/out/proved-from"):
            os.remove(f"{room}/out/proved-from")
        self.run = start(["rt", "lib", "--jobs", str(jobs)], room, log_of(crate), held)

    def end(self):
        """Whether the library is proved, from the sources that stand there now."""
        well = self.run.returncode == 0 and sources(self.crate) == self.sources
        clear_room(self.crate)
        if well:
            write(record(self.crate), self.sources)
        return well
