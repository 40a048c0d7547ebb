#!/usr/bin/env python3
"""Writes src/classes.rs: sorted ranges of characters, each with its classes: 1 digit (Nd), 2 capital (Lu), 4 lower case (Ll),
8 letter (Lu, Ll, Lt, Lm, Lo), 16 white space (White_Space)."""
import os
import unicodedata

SPACE = {*range(9, 14), 0x20, 0x85, 0xA0, 0x1680, *range(0x2000, 0x200B), 0x2028, 0x2029, 0x202F, 0x205F, 0x3000}
CLASSES = {"Nd": 1, "Lu": 2 + 8, "Ll": 4 + 8, "Lt": 8, "Lm": 8, "Lo": 8}


def main():
    ranges = []
    for c in range(0x110000):
        classes = CLASSES.get(unicodedata.category(chr(c)), 0) + 16 * (c in SPACE)
        if classes and ranges and ranges[-1][1:] == [c - 1, classes]:
            ranges[-1][1] = c
        elif classes:
            ranges.append([c, c, classes])
    path = os.path.join(os.path.dirname(os.path.realpath(__file__)), "src", "classes.rs")
    with open(path, "w", encoding="utf-8") as out:
        out.write("//! Ranges of characters with their classes: first, last, classes as in `text`. Made by `classes.py` from\n")
        out.write(f"//! Unicode {unicodedata.unidata_version}.\n")
        out.write(f"#[rustfmt::skip]\npub static RANGES: [(u32, u32, u8); {len(ranges)}] = [\n")
        for at in range(0, len(ranges), 8):
            out.write("    " + " ".join(f"(0x{a:X},0x{b:X},{c})," for a, b, c in ranges[at : at + 8]) + "\n")
        out.write("];\n")


main()
