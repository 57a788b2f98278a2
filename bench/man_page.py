#!/usr/bin/env python3
"""Makes the man page docs/magex.1 from docs/MANUAL.md, or checks that it is up to date.

    bench/man_page.py            writes docs/magex.1, which `man -l docs/magex.1` shows
    bench/man_page.py --check    writes nothing, and ends with status 1 where the page is another

Headings, paragraphs, lists and blocks of code stay what they are. A row of a table becomes an entry: its first cell, and then what the others say.
"""
import argparse
import re
import sys
from pathlib import Path

TOP = Path(__file__).resolve().parent.parent
MANUAL, PAGE = TOP / "docs/MANUAL.md", TOP / "docs/magex.1"
HEAD = r'''.\" Made from docs/MANUAL.md by bench/man_page.py.
.TH MAGEX 1 "" "magex %s" "User Commands"
.SH NAME
magex \- extract the circuit of a chip layout, and simulate it at switch level
.SH SYNOPSIS
.B magex
.RB [ \-\-budget
.IR N ]
.RB [ \-\-quiet ]
.RI < script
.RI > report
.SH DESCRIPTION'''


def escaped(text):
    """A text of roff that shows these bytes."""
    text = text.replace("\\", "\\e").replace("-", "\\-").replace("^", "\\(ha").replace("~", "\\(ti").replace("`", "\\(ga").replace("'", "\\(aq")
    return "\\&" + text if text[:1] in (".", "'") else text


def inline(text):
    """A line of the manual: code is bold, and what is stressed is italic or bold."""
    pieces = re.split(r"(`[^`]*`|\*\*[^*]*\*\*|\*[^*]*\*)", text)
    shown = ""
    for piece in pieces:
        if piece.startswith("`") and len(piece) > 1:
            shown += "\\fB%s\\fR" % escaped(piece[1:-1].replace("\\|", "|"))
        elif piece.startswith("**"):
            shown += "\\fB%s\\fR" % escaped(piece[2:-2])
        elif piece.startswith("*") and len(piece) > 1:
            shown += "\\fI%s\\fR" % escaped(piece[1:-1])
        else:
            shown += escaped(piece)
    return "\\&" + shown if shown[:1] in (".", "'") else shown


def table(rows):
    """The entries of a table: the first cell, the second, and the others behind the heads of their columns. An empty first cell is the one above it."""
    cells = [[cell.strip().replace("\\|", "|") for cell in re.split(r"(?<!\\)\|", row.strip()[1:-1])] for row in rows]
    head, entries = cells[0], cells[2:]
    first = ""
    for entry in entries:
        first = entry[0] or first
        texts = [inline(entry[1])] if entry[1] else []
        texts += ["\\fI%s:\\fR %s" % (escaped(name), inline(cell)) for name, cell in zip(head[2:], entry[2:]) if cell]
        yield from (".TP", inline(first), "\n.br\n".join(texts) or "\\&")


def list_items(lines):
    """The items of a list, each with the lines that go on behind it."""
    items = []
    for line in lines:
        if re.match(r"- |\d+\. ", line):
            items.append(line)
        else:
            items[-1] += " " + line.strip()
    for item in items:
        mark, _, text = item.partition(" ")
        yield ".IP %s 4" % ("\\(bu" if mark == "-" else mark)
        yield inline(text)


def block(lines):
    """A block of the manual: lines without a blank one between them."""
    if lines[0].startswith("## "):
        yield '.SH "%s"' % escaped(lines[0][3:]).upper()
    elif lines[0].startswith("### "):
        yield '.SS "%s"' % escaped(lines[0][4:])
    elif lines[0].startswith("|"):
        yield from table(lines)
        yield ".PP"
    elif re.match(r"- |\d+\. ", lines[0]):
        yield from list_items(lines)
        yield ".PP"
    elif not lines[0].startswith(("![", "# ")):
        yield ".PP"
        yield from (inline(line.strip()) for line in lines)


def blocks(text):
    """The blocks of the manual in turn; one of code is its own."""
    for number, part in enumerate(re.split(r"^```\n", text, flags=re.M)):
        if number % 2:
            yield [".PP", ".nf", ".RS 4"] + [escaped(line) or "\\&" for line in part.splitlines()] + [".RE", ".fi"]
        else:
            yield from (list(block(lines.splitlines())) for lines in re.split(r"\n\n+", part.strip("\n")) if lines)


def page():
    text = MANUAL.read_text()
    version = (TOP / "VERSION").read_text().strip()
    lines = [line for found in blocks(text) for line in found]
    see = [".SH SEE ALSO", ".BR magic (1)", ".PP", "The folder examples, and docs/FROM\\-MAGIC.md, docs/DEFINITIONS.md and README.md beside it."]
    return "\n".join((HEAD % version).splitlines() + lines + see) + "\n"


def main():
    options = argparse.ArgumentParser(description=__doc__, formatter_class=argparse.RawDescriptionHelpFormatter)
    options.add_argument("--check", action="store_true")
    if options.parse_args().check:
        sys.exit("docs/magex.1 is not what docs/MANUAL.md says" if not PAGE.exists() or PAGE.read_text() != page() else 0)
    PAGE.write_text(page())


if __name__ == "__main__":
    main()
