#!/usr/bin/env python3
"""Puts the programs, the manual and the completions below a folder, or takes them away.

    install.py FOLDER [FLASHFILL FILLCSV]   without programs, those that are proved from these sources
    install.py --remove FOLDER
"""
import os
import sys

sys.path.insert(0, os.path.dirname(os.path.dirname(os.path.realpath(__file__))))
from release.making import give_up, proved_programs  # noqa: E402
from release.tree import file_at, folder_of, program_at, shared, text, write_tree  # noqa: E402

DOC = "share/doc/flashfill"
# the list of what was installed, by which it is taken away
LIST = f"{DOC}/installed"


def install(folder, flashfill, fillcsv):
    tree = {"bin/flashfill": program_at(flashfill), "bin/fillcsv": program_at(fillcsv)}
    tree.update(shared(flashfill, fillcsv, "site-functions"))
    tree.update({f"{DOC}/{it}": file_at(it) for it in ("README.md", "LICENSE", "CHANGELOG.md")})
    tree.update({f"{DOC}/{path}": file for path, file in folder_of("examples").items()})
    write_tree({**tree, LIST: text("\n".join([*tree, LIST]) + "\n")}, folder)


def remove(folder):
    try:
        with open(f"{folder}/{LIST}", encoding="utf-8") as file:
            paths = file.read().splitlines()
    except FileNotFoundError:
        give_up(f"nothing of this is installed in {folder}")
    for path in paths:
        if os.path.exists(f"{folder}/{path}"):
            os.remove(f"{folder}/{path}")
        try:
            os.removedirs(os.path.dirname(f"{folder}/{path}"))
        except OSError:  # something else stands there
            pass


def main(words):
    if len(words) == 2 and words[0] == "--remove":
        remove(words[1])
    elif len(words) in (1, 3):
        install(words[0], *(words[1:] or proved_programs()))
    else:
        give_up(__doc__.strip(), 2)


if __name__ == "__main__":
    main(sys.argv[1:])
