"""A release: which programs it has, where they come from, and its files."""
import hashlib
import os
import shutil
import subprocess
import sys

from building.crates import binary, closure, is_proved, sources
from release import debian
from release.parts import add_parts
from release.told import ROOT, sections, text_at
from release.tree import file_at, folder_of, program_at, shared, tarball, text

OUT = f"{ROOT}/out/release"


def give_up(told, status=1):
    print(f"release: {told}", file=sys.stderr)
    sys.exit(status)


def say(told):
    print(f"release: {told}", flush=True)


def git(*words):
    return subprocess.run(["git", *words], cwd=ROOT, stdout=subprocess.PIPE, text=True, check=True).stdout.strip()


def proved_programs():
    """The programs that are proved from the sources that stand here."""
    for it in ("flashfill", "fillcsv"):
        if not is_proved(it):
            give_up(f"{it} is not proved from these sources; ./{it} proves and builds it")
    return binary("flashfill"), binary("fillcsv")


def expect_commit():
    """Gives up where the sources are not those of a commit, which a release names."""
    if git("status", "--porcelain", "--untracked-files=no"):
        give_up("files of this checkout have changed since its last commit")


def kit():
    """The kit's name of itself, as far as it is at hand."""
    if shutil.which("rt") is None:
        return "not at hand"
    return subprocess.run(["rt", "version"], stdin=subprocess.DEVNULL, stdout=subprocess.PIPE, text=True, check=True).stdout.strip()


def sum_of(path):
    with open(path, "rb") as file:
        return hashlib.sha256(file.read()).hexdigest()


class Release:
    """A release of two programs, and of the library where that is there."""

    def __init__(self, flashfill, fillcsv, library, is_proved):
        self.flashfill, self.fillcsv, self.library, self.is_proved = flashfill, fillcsv, library, is_proved
        self.version, self.time = text_at("VERSION").strip(), int(git("log", "-1", "--format=%ct"))
        self.mark = "" if is_proved else "-unproved"

    def provenance(self, libc):
        """What the programs were made from, and how they are made again."""
        commit, changed = git("rev-parse", "HEAD"), git("status", "--porcelain", "--untracked-files=no")
        lines = [f"FlashFill {self.version} for Linux on x86-64", ""]
        if not self.is_proved:
            lines += ["NOT PROVED: these programs are for trials of the release alone.", ""]
        lines += [f"commit   {commit}{' and changes to it' if changed else ''}", f"kit      {kit()}"]
        lines += [f"needs    the C library alone, glibc {libc} or later", ""]
        for name, path in (("flashfill", self.flashfill), ("fillcsv", self.fillcsv)):
            lines += [f"{name}", f"    sha256   {sum_of(path)}"]
            if self.is_proved:
                lines += [f"    sources  {sources(name)} ({len(closure(name))} crates, all proved)"]
        if self.is_proved:
            lines += ["", "What is proved", "", sections("README.md").get("What is proved", "").strip()]
            lines += ["", "The same bytes again, with this kit and Python 3.8 or later:", "", f"    git checkout {commit}"]
            lines += ["    ./fillcsv --help && ./flashfill made 1", "    tools/release"]
        return "\n".join(lines) + "\n"

    def make(self, out=OUT):
        """Writes all files into a folder, which is emptied first."""
        shutil.rmtree(out, ignore_errors=True)
        os.makedirs(out)
        libc = debian.libc_of([self.flashfill, self.fillcsv])
        provenance = self.provenance(libc)
        top = f"flashfill-{self.version}{self.mark}-linux-x86_64"
        files = {"flashfill": program_at(self.flashfill), "fillcsv": program_at(self.fillcsv), "PROVENANCE": text(provenance)}
        for path in ("README.md", "LICENSE", "CHANGELOG.md", "VERSION"):
            files[path] = file_at(path)
        files.update(shared(self.flashfill, self.fillcsv, "site-functions"))
        files.update({**folder_of("examples"), **folder_of("docs", ".md")})
        with open(f"{out}/{top}.tar.gz", "wb") as file:
            file.write(tarball(files, top, self.time))
        with open(f"{out}/PROVENANCE", "w", encoding="utf-8") as file:
            file.write(provenance)
        self.make_package(libc, provenance, out)
        add_parts(self.library, out, self.mark, say)
        names = sorted(os.listdir(out))
        with open(f"{out}/SHA256SUMS", "w", encoding="utf-8") as file:
            file.writelines(f"{sum_of(f'{out}/{it}')}  {it}\n" for it in names)
        for it in names:
            say(f"{os.path.relpath(f'{out}/{it}', ROOT)} has {os.path.getsize(f'{out}/{it}')} bytes")

    def make_package(self, libc, provenance, out):
        if shutil.which("dpkg-deb") is None:
            say("without the Debian package: dpkg-deb is not here")
            return
        version = self.version + self.mark.replace("-", "~")
        tree = debian.tree(self.flashfill, self.fillcsv, version, self.time, provenance)
        debian.package(tree, version, libc, self.time, f"{out}/flashfill_{version}_amd64.deb")
