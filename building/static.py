"""Static libraries, for other languages: proved and built by the kit's `rattle`."""
import os
import tempfile

from building.crates import OUT, below, binary, bitcode, closure, folder
from building.kit import kit_folder, kit_libraries, make_tools
from building.runs import log_of, start, wait_for

KEEPING_CLANG = """#!/bin/sh
# the kit's clang; the largest bitcode that it is handed is kept
for it in "$@"; do
    case $it in *.bc)
        had=$(stat -c %s '{kept}' 2>/dev/null || echo 0)
        if [ "$(stat -c %s "$it")" -gt "$had" ]; then cp "$it" '{kept}'; fi ;;
    esac
done
exec '{clang}' "$@"
"""


def words_of_static(library, kit, tools, jobs):
    """The command that proves a static library over the libraries below it, and builds it."""
    words = [f"{kit}/bin/rattle", "build", "--crate-name", library, "--crate-type", "staticlib", "src/lib.rt"]
    for it in kit_libraries(library):
        words += ["--extern", f"{it}={kit}/rlibs/{it}.rlib"]
    for it in below(library):
        words += ["--extern", f"{it}={folder(it)}/out/rlib/{it}.rlib"]
    for it in [f"{kit}/rlibs", *(f"{folder(it)}/out/rlib" for it in closure(library)[:-1])]:
        words += ["-L", f"dependency={it}"]
    words += ["--antt-project", f"{kit}/rattle/logic/antt-project.json", "--logic-built", f"{kit}/logic_built"]
    return [*words, "--jobs", str(jobs), "--toolchain", tools, "-o", binary(library)]


def build_static(library, jobs, held):
    """Proves and builds a static library, and keeps its bitcode; returns whether that went well."""
    kit = kit_folder()
    os.makedirs(f"{folder(library)}/out", exist_ok=True)
    for it in (binary(library), bitcode(library)):
        if os.path.exists(it):
            os.remove(it)
    with tempfile.TemporaryDirectory(dir=OUT, prefix="tools-") as tools:
        make_tools(kit, f"{tools}/toolchain", KEEPING_CLANG.format(kept=bitcode(library), clang=f"{kit}/toolchain/bin/clang"))
        words = words_of_static(library, kit, f"{tools}/toolchain", jobs)
        run = start(words, folder(library), log_of(library), held)
        wait_for(run)
    # rattle makes a library of proved code alone
    return run.returncode == 0 and os.path.exists(binary(library)) and os.path.exists(bitcode(library))
