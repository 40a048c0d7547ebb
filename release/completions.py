#!/usr/bin/env python3
"""Makes the completions for bash, zsh and fish: completions.py FILLCSV FOLDER

What options there are, and which values they take, comes from the program's help.
"""
import os
import re
import sys

sys.path.insert(0, os.path.dirname(os.path.dirname(os.path.realpath(__file__))))
from release.told import help_of, text_at  # noqa: E402

# How the values of options are completed, by the names that the help gives them
KINDS = {"COLUMN": "column", "COLUMN,..": "columns", "RULE": "rule", "FILE": "rule", "NAME=FILE": "table"}


def kind(option):
    return "choice" if option.values() else KINDS.get(option.value, "other")


def awk():
    return text_at("release/shells/columns.awk").partition("\n")[2].strip()


def for_bash(options):
    valued = [it for it in options if it.value]

    def named(*kinds):
        return " | ".join(name for it in valued if kind(it) in kinds for name in it.names) or "--"

    choices = [
        f"        {' | '.join(it.names)}) mapfile -t COMPREPLY < <(compgen -W '{' '.join(it.values())}' -- \"$cur\") ;;"
        for it in valued
        if it.values()
    ]
    return {
        "VALUED": " | ".join(name for it in valued for name in it.names),
        "COLUMN": named("column", "columns"),
        "CHOICES": "\n".join(choices),
        "RULE": named("rule"),
        "TABLE": named("table"),
        "OTHER": named("other"),
        "OPTIONS": " ".join(name for it in options for name in it.names if name.startswith("--")),
    }


def for_zsh(options):
    actions = {
        "column": ":column:_fillcsv_columns",
        "columns": ":columns:{_fillcsv_columns several}",
        "rule": ':rule:_files -g "*.rule"',
        "table": ":table:_fillcsv_table",
        "other": ":value: ",
    }
    lines = []
    for it in options:
        what = re.sub(r"([][:\\])", r"\\\1", it.what).replace("'", "'\\''")
        action = f":value:({' '.join(it.values())})" if it.values() else actions[kind(it)] if it.value else ""
        for name in it.names:
            # an option of which the help says nothing else may stand several times
            lines.append(f"    '*{name}[{what}]{action}' \\")
    return {"ARGUMENTS": "\n".join(lines)}


def for_fish(options):
    actions = {
        "column": " -x -a '(__fillcsv_columns)'",
        "columns": " -x -a '(__fish_complete_list , __fillcsv_columns)'",
        "rule": " -r -k -a '(__fish_complete_suffix .rule)'",
        "table": " -r -F",
        "other": " -x",
    }
    lines = []
    for it in options:
        names = "".join(f" -l {name[2:]}" if name.startswith("--") else f" -s {name[1:]}" for name in it.names)
        what = it.what.replace("\\", "\\\\").replace("'", "\\'")
        action = f" -x -a '{' '.join(it.values())}'" if it.values() else actions[kind(it)] if it.value else ""
        lines.append(f"complete -c fillcsv{names}{action} -d '{what}'")
    return {"VALUED": " ".join(name for it in options if it.value for name in it.names), "COMPLETES": "\n".join(lines)}


def filled(name, parts):
    """A file of shells/ with its parts in their places."""
    text = text_at(f"release/shells/{name}")
    for part, value in {**parts, "COLUMNS": awk()}.items():
        text = text.replace(f"@{part}@", value)
    return text


def completions(fillcsv):
    """The text of each completion, by the name of its file."""
    options = help_of(fillcsv).options
    return {
        "fillcsv.bash": filled("fillcsv.bash", for_bash(options)),
        "_fillcsv": filled("_fillcsv", for_zsh(options)),
        "fillcsv.fish": filled("fillcsv.fish", for_fish(options)),
    }


def main(fillcsv, folder):
    os.makedirs(folder, exist_ok=True)
    for name, text in completions(fillcsv).items():
        with open(f"{folder}/{name}", "w", encoding="utf-8") as file:
            file.write(text)


if __name__ == "__main__":
    main(*sys.argv[1:])
