"""The Rattle kit: where it is, its libraries, and its toolchain with another clang."""
import os
import re
import subprocess

from building.crates import LINES, write

MACHINE = "x86_64-unknown-linux-gnu"


def kit_folder():
    return os.path.dirname(subprocess.run(["rt", "doc"], stdout=subprocess.PIPE, text=True, check=True).stdout.strip())


def kit_libraries(crate):
    """The libraries of the kit that a crate uses itself."""
    return ["std", *(it for it in LINES[crate].partition(":")[2].split() if it not in LINES)]


def libraries_below(kit, library):
    """The libraries of the kit that a library of the kit uses itself."""
    with open(f"{kit}/rlibs/{library}.rlib/format", encoding="utf-8") as file:
        return re.findall(r"^dep (\w+)$", file.read(), re.M)


def make_tools(kit, folder, clang):
    """A folder of links to the kit's toolchain, with this script in place of its clang."""
    os.makedirs(f"{folder}/bin")
    for part in ("", "bin/"):
        for it in os.listdir(f"{kit}/toolchain/{part}"):
            if f"{part}{it}" not in ("bin", "bin/clang"):
                os.symlink(f"{kit}/toolchain/{part}{it}", f"{folder}/{part}{it}")
    write(f"{folder}/bin/clang", clang)
    os.chmod(f"{folder}/bin/clang", 0o755)
