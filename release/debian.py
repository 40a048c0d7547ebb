"""The Debian package."""
import email.utils
import hashlib
import os
import re
import subprocess
import tempfile

from release.tree import file_at, folder_of, packed, program_at, shared, text, write_tree

NAME = "flashfill"
MAINTAINER = "Vinebucket maintainers <maintainers@users.noreply.vinebucket.example>"
COPYRIGHT = """Format: https://www.debian.org/doc/packaging-manuals/copyright-format/1.0/
Upstream-Name: FlashFill
Source: the commit that /usr/share/doc/flashfill/PROVENANCE names

Files: *
Copyright: 2026 the FlashFill authors
License: Apache-2.0
 On Debian systems the text is in /usr/share/common-licenses/Apache-2.0.
"""
OVERRIDES = """# the programs are, byte by byte, those that were proved and built
flashfill: unstripped-binary-or-object [usr/bin/*]
"""
DESCRIPTION = """fill a column of a CSV sheet by example
 From a few cells that you fill yourself, fillcsv learns a rule that makes each
 cell of the column from the others of its row. It fills the rest, and tells
 which cells are settled by the examples and which are guesses.
 .
 flashfill replays session files with examples, edits and questions."""


def libc_of(programs):
    """The oldest C library that has all names that the programs use: each program names their versions."""
    named = {it for program in programs for it in re.findall(rb"\0GLIBC_([0-9.]+)\0", program_at(program).bytes)}
    return max((it.decode() for it in named), key=lambda it: [int(part) for part in it.split(".")])


def tree(flashfill, fillcsv, version, time, provenance):
    """The files of the package, by their paths from the root."""
    made = {f"usr/bin/{NAME}": program_at(flashfill), "usr/bin/fillcsv": program_at(fillcsv)}
    for path, file in shared(flashfill, fillcsv, "vendor-completions").items():
        is_page = path.startswith("share/man/")
        made[f"usr/{path}.gz" if is_page else f"usr/{path}"] = packed(file) if is_page else file
    doc = f"usr/share/doc/{NAME}"
    changes = f"{NAME} ({version}) unstable; urgency=medium\n\n  * See CHANGELOG.md.gz.\n\n -- {MAINTAINER}  {email.utils.formatdate(time)}\n"
    made[f"{doc}/changelog.gz"] = packed(text(changes))
    made[f"{doc}/CHANGELOG.md.gz"] = packed(file_at("CHANGELOG.md"))
    made[f"{doc}/README.md"] = file_at("README.md")
    made[f"{doc}/PROVENANCE"] = text(provenance)
    made[f"{doc}/copyright"] = text(COPYRIGHT)
    made[f"usr/share/lintian/overrides/{NAME}"] = text(OVERRIDES)
    for path, file in folder_of("examples").items():
        made[f"{doc}/{path}"] = file
    return made


def package(files, version, libc, time, out):
    """Writes the package of these files."""
    sizes = sum(-(-len(it.bytes) // 1024) for it in files.values())
    control = [f"Package: {NAME}", f"Version: {version}", "Architecture: amd64", f"Maintainer: {MAINTAINER}"]
    control += [f"Installed-Size: {sizes}", f"Depends: libc6 (>= {libc})", "Section: text", "Priority: optional", f"Description: {DESCRIPTION}"]
    sums = "".join(f"{hashlib.md5(file.bytes).hexdigest()}  {path}\n" for path, file in sorted(files.items()))
    whole = {**files, "DEBIAN/control": text("\n".join(control) + "\n"), "DEBIAN/md5sums": text(sums)}
    with tempfile.TemporaryDirectory(prefix="package-") as work:
        write_tree(whole, work)
        os.chmod(work, 0o755)
        how = {**os.environ, "SOURCE_DATE_EPOCH": str(time)}
        for at, _, _ in os.walk(work, topdown=False):
            os.chmod(at, 0o755)
        subprocess.run(["dpkg-deb", "--root-owner-group", "-Zxz", "--build", work, out], env=how, stdout=subprocess.DEVNULL, check=True)
