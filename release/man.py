#!/usr/bin/env python3
"""Makes the pages of the manual: man.py FLASHFILL FILLCSV FOLDER

Options and examples come from the programs themselves, all else from the documents, so that no text is kept twice.
"""
import datetime
import os
import re
import subprocess
import sys

sys.path.insert(0, os.path.dirname(os.path.dirname(os.path.realpath(__file__))))
from release.roff import blocks, code, lines_of, page, plain, section  # noqa: E402
from release.told import ROOT, help_of, sections, text_at, usage_of  # noqa: E402

# how sections of the documents are called in a manual
TITLES = {"statuses": "EXIT STATUS", "exit statuses": "EXIT STATUS", "how to read a flag": "STATES"}
# of a document's sections, those that tell of the command; the others tell of its files
COMMAND = {"commands", "exit statuses"}


def without_first_paragraph(body):
    """A section's body whose first paragraph needs no space before it."""
    return body[1:] if body[:1] == [".PP"] else body


def installed(text):
    """A document's text as it is for programs that are installed: none is started by its path, or compiled first."""
    text = re.sub(r"(?<![\w/])\.{1,2}/(?=(fillcsv|flashfill)\b)", "", text)
    return "\n\n".join(it for it in text.split("\n\n") if "--try" not in it)


def taken(parts):
    out = []
    for title, text in parts.items():
        body = without_first_paragraph(blocks(installed(text)))
        if body:
            out += section(TITLES.get(title.lower(), plain(title.upper())), body)
    return out


def see_also(*names):
    return section("SEE ALSO", [", ".join(rf"\fB{name}\fR({part})" for name, part in names)])


def synopsis(lines):
    out = []
    for line in lines:
        name, _, words = line.partition(" ")
        out += [".br"] * bool(out) + [rf"\fB{plain(name)}\fR {plain(words)}"]
    return section("SYNOPSIS", out)


def page_of_fillcsv(told):
    flags = {title: text for title, text in sections("README.md").items() if title == "How to read a flag"}
    document = sections("docs/FILLCSV.md")
    # the help tells the options, and what is measured is no part of a manual
    rest = {title: text for title, text in document.items() if title not in ("", "Options") and "it takes" not in title}
    options = []
    for it in told.options:
        names = ", ".join(rf"\fB{plain(name)}\fR" for name in it.names)
        options += [".TP", names + (rf" \fI{plain(it.value)}\fR" if it.value else ""), *lines_of(it.what)]
    return [
        *section("NAME", [r"fillcsv \- fill a column of a CSV sheet by example"]),
        *synopsis(told.usage),
        *section("DESCRIPTION", lines_of(told.about)),
        *section("OPTIONS", without_first_paragraph(options)),
        *taken(flags),
        *taken(rest),
        *section("EXAMPLES", without_first_paragraph(code(told.examples))),
        *see_also(("flashfill", 1), ("flashfill", 5)),
    ]


def pages(flashfill, fillcsv):
    """The text of each page, by the name of its file."""
    stamp = subprocess.run(["git", "log", "-1", "--format=%ct"], cwd=ROOT, stdout=subprocess.PIPE, text=True, check=True).stdout
    date = datetime.datetime.fromtimestamp(int(stamp), datetime.timezone.utc).date()
    source = f"FlashFill {text_at('VERSION').strip()}"
    session = sections("docs/SESSION.md")
    of_command = {title: text for title, text in session.items() if title.lower() in COMMAND}
    of_files = {title: text for title, text in session.items() if title and title not in of_command}
    about = session[""].split("\n", 1)[1]
    rule = sections("docs/FILLCSV.md").get("Saved rules", "")
    command = [
        *section("NAME", [r"flashfill \- learn string programs from examples in a CSV sheet"]),
        *synopsis(usage_of(flashfill)),
        *section("DESCRIPTION", [r"The files that it reads and writes are told of in \fBflashfill\fR(5)."]),
        *taken(of_command),
        *see_also(("fillcsv", 1), ("flashfill", 5)),
    ]
    files = [
        *section("NAME", [r"flashfill \- session files and saved rules"]),
        *section("DESCRIPTION", without_first_paragraph(blocks(about))),
        *taken(of_files),
        *(section("SAVED RULES", without_first_paragraph(blocks(installed(rule)))) if rule else []),
        *see_also(("fillcsv", 1), ("flashfill", 1)),
    ]
    return {
        "fillcsv.1": page("fillcsv", 1, "User Commands", date, source, page_of_fillcsv(help_of(fillcsv))),
        "flashfill.1": page("flashfill", 1, "User Commands", date, source, command),
        "flashfill.5": page("flashfill", 5, "File Formats", date, source, files),
    }


def main(flashfill, fillcsv, folder):
    os.makedirs(folder, exist_ok=True)
    for name, text in pages(flashfill, fillcsv).items():
        with open(f"{folder}/{name}", "w", encoding="utf-8") as file:
            file.write(text)


if __name__ == "__main__":
    main(*sys.argv[1:])
