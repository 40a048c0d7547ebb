"""What `fillcsv --help` tells, and the documents of this repository, as data."""
import os
import re
import subprocess
from dataclasses import dataclass

ROOT = os.path.dirname(os.path.dirname(os.path.realpath(__file__)))


def text_at(path):
    """The text of a file of this repository."""
    with open(f"{ROOT}/{path}", encoding="utf-8") as file:
        return file.read()


@dataclass(frozen=True)
class Option:
    """An option: its names, the name of its value, empty where it takes none, and what it does."""

    names: tuple
    value: str
    what: str

    def values(self):
        """The values that it can take, where the help lists them all."""
        listed = re.search(r"\[possible values: (.*?)\]", self.what)
        if listed:
            return listed[1].split(", ")
        span = re.search(r"\b(\d) to (\d)\b", self.what)
        return [str(it) for it in range(int(span[1]), int(span[2]) + 1)] if self.value == "NUMBER" and span else []


@dataclass(frozen=True)
class Help:
    """The help of `fillcsv`."""

    about: str
    usage: list
    options: list
    examples: list


def options_in(told):
    """The options that a help lists."""
    options = []
    for line in re.search(r"^Options:\n(.*?)(\n\n|\Z)", told, re.M | re.S)[1].splitlines():
        entry = re.match(r" +((?:-\w, )?--[\w-]+)(?: <(.*?)>)?(?: {2,}(.*))?$", line)
        if entry:
            options.append(Option(tuple(entry[1].split(", ")), entry[2] or "", entry[3] or ""))
        else:  # the text goes on
            last = options.pop()
            options.append(Option(last.names, last.value, f"{last.what} {line.strip()}".strip()))
    return options


def told_by(program, *words):
    how = {"stdin": subprocess.DEVNULL, "stdout": subprocess.PIPE, "stderr": subprocess.STDOUT, "text": True}
    return subprocess.run([program, *words], **how, timeout=60, check=False).stdout


def help_of(fillcsv):
    """Reads the help of the program at this path, and that of its second form, which runs a saved rule."""
    told = told_by(fillcsv, "--help")
    about, _, rest = told.partition("\n\nUsage:")
    usage, _, rest = rest.partition("\n\n")
    options = options_in(rest)
    known = {it.names for it in options}
    # the help for both forms ends with --help and --version
    more = [it for it in options_in(told_by(fillcsv, "--rule", "RULE", "--help")) if it.names not in known]
    ending = sum(it.names[-1] in ("--help", "--version") for it in options)
    examples = re.search(r"^Examples:\n(.*)", rest, re.M | re.S)
    return Help(
        " ".join(about.split()),
        [line.strip() for line in usage.strip().splitlines()],
        [*options[: len(options) - ending], *more, *options[len(options) - ending :]],
        [line.strip() for line in examples[1].rstrip().splitlines()] if examples else [],
    )


def usage_of(flashfill):
    """The commands of `flashfill`, from its usage line."""
    return told_by(flashfill).strip().partition("usage: ")[2].split(" or ")


def sections(path):
    """The sections of a document by their headings, in order; what stands before the first one has the empty name."""
    parts = re.split(r"^## (.*)\n", text_at(path), flags=re.M)
    return {"": parts[0], **dict(zip(parts[1::2], parts[2::2]))}
