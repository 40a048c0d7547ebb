#!/usr/bin/env python3
"""Makes LLVM's text of a native module one for WebAssembly: retarget.py NATIVE.ll WASM.ll

The text names the machine that it was made for in two lines and in attributes of functions. Nothing else in it depends
on the machine: both have numbers of 64 bits, lowest byte first.
"""
import re
import sys

ATTRIBUTES = re.compile(r' ?"(?:target-cpu|target-features|tune-cpu|probe-stack|stack-probe-size)"(?:="[^"]*")?')


def retargeted(line):
    """The line for WebAssembly; empty where it says how the native machine lays out its data."""
    if line.startswith("target datalayout"):
        return ""
    if line.startswith("target triple"):
        return 'target triple = "wasm64-unknown-unknown"\n'
    if line.startswith("attributes #"):
        return ATTRIBUTES.sub("", line)
    return line


def main(native, wasm):
    with open(native, encoding="utf-8") as lines, open(wasm, "w", encoding="utf-8") as out:
        seen = 0
        for line in lines:
            seen += line.startswith("target triple")
            out.write(retargeted(line))
    if seen != 1:
        sys.exit(f"{native}: {seen} lines name the machine, and not one")


if __name__ == "__main__":
    main(*sys.argv[1:])
