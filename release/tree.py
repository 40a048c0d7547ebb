"""The files of a release, by their paths, and how they are written: the same files give the same bytes."""
import gzip
import io
import os
import tarfile
from dataclasses import dataclass

from release.completions import completions
from release.man import pages
from release.told import ROOT


@dataclass(frozen=True)
class File:
    """A file of a release."""

    bytes: bytes
    is_program: bool = False

    @property
    def mode(self):
        return 0o755 if self.is_program else 0o644


def text(content):
    return File(content.encode())


def packed(file):
    """A file as gzip packs it, without a time."""
    return File(gzip.compress(file.bytes, 9, mtime=0))


def file_at(path):
    with open(f"{ROOT}/{path}", "rb") as it:
        return File(it.read())


def program_at(path):
    with open(path, "rb") as it:
        return File(it.read(), True)


def shared(flashfill, fillcsv, zsh):
    """What stands in `share` beside the programs: the manual and the completions. `zsh` is the folder for that shell's."""
    made = {}
    for name, page in pages(flashfill, fillcsv).items():
        made[f"share/man/man{name[-1]}/{name}"] = text(page)
    told = completions(fillcsv)
    made["share/bash-completion/completions/fillcsv"] = text(told["fillcsv.bash"])
    made[f"share/zsh/{zsh}/_fillcsv"] = text(told["_fillcsv"])
    made["share/fish/vendor_completions.d/fillcsv.fish"] = text(told["fillcsv.fish"])
    return made


def folder_of(path, ending=""):
    """The files of a folder of this repository, those below it left out."""
    names = sorted(it for it in os.listdir(f"{ROOT}/{path}") if it.endswith(ending) and os.path.isfile(f"{ROOT}/{path}/{it}"))
    return {f"{path}/{it}": file_at(f"{path}/{it}") for it in names}


def write_tree(tree, folder):
    """Writes files below a folder."""
    for path, file in tree.items():
        os.makedirs(os.path.dirname(f"{folder}/{path}"), exist_ok=True)
        with open(f"{folder}/{path}", "wb") as it:
            it.write(file.bytes)
        os.chmod(f"{folder}/{path}", file.mode)


def tarball(tree, top, time):
    """The bytes of a packed archive of files below a folder `top`, all of one time."""
    whole = io.BytesIO()
    with gzip.GzipFile(fileobj=whole, mode="wb", compresslevel=9, mtime=time) as packing:
        with tarfile.open(fileobj=packing, mode="w", format=tarfile.PAX_FORMAT) as archive:
            folders = {top}
            for path in tree:
                parts = path.split("/")[:-1]
                folders.update("/".join([top, *parts[: at + 1]]) for at in range(len(parts)))
            entries = {**{it: None for it in folders}, **{f"{top}/{path}": file for path, file in tree.items()}}
            for path in sorted(entries):
                entry, file = tarfile.TarInfo(path), entries[path]
                entry.mtime, entry.uname, entry.gname = time, "root", "root"
                if file is None:
                    entry.type, entry.mode = tarfile.DIRTYPE, 0o755
                    archive.addfile(entry)
                else:
                    entry.size, entry.mode = len(file.bytes), file.mode
                    archive.addfile(entry, io.BytesIO(file.bytes))
    return whole.getvalue()
