"""The part of Markdown that the documents use, as text for `man`."""
import re
import textwrap


def plain(text):
    """Text as it stands: no sign of it is a request or an escape."""
    text = text.replace("\\", r"\e").replace("-", r"\-").replace("`", r"\(ga").replace("^", r"\(ha").replace("~", r"\(ti")
    return rf"\&{text}" if text[:1] in (".", "'") else text


def inline(text):
    """A run of text: links lose their targets, code and what is stressed become bold or italic."""
    text = re.sub(r"!?\[([^]]*)\]\([^)]*\)", r"\1", text)
    pieces = re.split(r"(`[^`]+`|\*\*[^*]+\*\*|\*[^*\s][^*]*\*)", text)
    out = []
    for piece in pieces:
        if piece[:1] == "`" and len(piece) > 1:
            out.append(rf"\fB{plain(piece[1:-1])}\fR")
        elif piece[:2] == "**" and len(piece) > 4:
            out.append(rf"\fB{plain(piece[2:-2])}\fR")
        elif piece[:1] == "*" and len(piece) > 2:
            out.append(rf"\fI{plain(piece[1:-1])}\fR")
        else:
            out.append(plain(piece))
    text = "".join(out)
    return rf"\&{text}" if text[:1] in (".", "'") else text


def lines_of(text):
    """A run of text in lines of a width that `man` sources have."""
    out = textwrap.wrap(inline(text), 70, break_long_words=False, break_on_hyphens=False)
    return [rf"\&{line}" if line[:1] in (".", "'") else line for line in out] or [r"\&"]


def code(lines):
    """Lines as they stand."""
    return [".PP", ".RS 4", ".nf", *(plain(line) or r"\&" for line in lines), ".fi", ".RE"]


def cells(row):
    """The cells of a table's row; a bar after a backslash is no border."""
    return [it.strip().replace(r"\|", "|") for it in re.split(r"(?<!\\)\|", row.strip().strip("|"))]


def table(rows):
    """A table: its first column names what the others tell."""
    heads, out = cells(rows[0]), []
    for row in rows[2:]:
        name, *others = cells(row)
        told = others[:1] + [f"{head[:1].upper()}{head[1:]}: {cell}" for head, cell in zip(heads[2:], others[1:])]
        out += [".TP", inline(name) or r"\&", *lines_of(". ".join(told))]
    return out


def list_of(lines):
    """A list, with dots or with numbers."""
    out = []
    for line in lines:
        entry = re.match(r"(-|\d+\.) (.*)", line)
        if entry:
            mark = r"\(bu" if entry[1] == "-" else entry[1]
            out += [f".IP {mark} 4", *lines_of(entry[2])]
        else:
            out += lines_of(line.strip())
    return out


def blocks(text):
    """The text of a section as lines for `man`."""
    out, block, is_code = [], [], False
    for line in [*text.split("\n"), ""]:
        if line.startswith("```"):
            if is_code:
                out += code(block)
            block, is_code = [], not is_code
        elif line.strip() or is_code:
            block.append(line)
        elif block:
            out += block_of(block)
            block = []
    return out


def block_of(lines):
    """A block without empty lines: a heading, a table, a list or a paragraph."""
    if lines[0].startswith("#"):
        return [f'.SS "{plain(lines[0].lstrip("# "))}"', *(block_of(lines[1:]) if lines[1:] else [])]
    if lines[0].startswith("|"):
        return table(lines)
    if re.match(r"(-|\d+\.) ", lines[0]):
        return list_of(lines)
    return [".PP", *lines_of(" ".join(lines))]


def page(name, part, title, date, source, body):
    """A page of the manual."""
    head = [f'.TH {name.upper()} {part} {date} "{source}" "{title}"']
    return "\n".join([*head, *body]) + "\n"


def section(title, body):
    return [f'.SH "{title}"' if " " in title else f".SH {title}", *body]
