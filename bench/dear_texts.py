#!/usr/bin/env python3
"""Runs scripts over texts that are made to be dear, and tells what each takes.

    bench/dear_texts.py [--only WORDS] [--seconds 10] [--megabytes 1024] [--stack KIB] [--program PATH]

Each text has 16 MiB, the most that a file or a script may have, where its name does not say less. For each it prints the seconds of the processor and the
most megabytes, and how the run ended: its status and the last line of its report, or the signal that ended it. Past `--seconds` or `--megabytes`, and where
the last line is another than it is to be, it marks the row, and ends with status 1. With `--stack` a run has a stack of so many KiB, so that nothing can
recurse deeply unseen. Megabytes are at least those of this script, which starts the runs.
"""
import argparse
import re
import sys
import tempfile
from pathlib import Path

from bench import PROGRAM
from bounded_runs import ran
from case_files import DATA

LONGEST = 1 << 24
CHUNK = 1 << 18
ONE = "1 0 0 0 1 0"
TWO = (DATA / "two.tech").read_text()
TO_TYPES = TWO[:TWO.index(" wire left\n")]
CONNECT = TO_TYPES + " wire left\n wire right\nend\nconnect\n"
EXTRACT = CONNECT + "end\nextract\n"
EXT = "tech two\nversion 1\nresistclasses\n"
EXT_2 = EXT.replace("version 1", "version 2")
SIM = "| units: 1 tech: two format: MIT\n"
CELL = "magic\n<< left >>\nrect 0 0 4 1\n<< end >>\n"
LEAF = EXT + 'node "a" 0 0 0 0 left\n'
AFTER_LOAD = "nodes h\nsquares h\nflat h\nsave h\n"
STARTS = {
    "script": "",
    "tech": "tech h\n",
    "mag": "tech two\nload h\n" + AFTER_LOAD,
    "load": "tech two\nload h\n",
    "ext": "ext2sim h\n",
    "sim": "simrun h v\n",
    "vec": "simrun one h\n",
}
# Beside each text lie these files.
BESIDE = {"two.tech": TWO, "l.mag": CELL, "l.ext": LEAF, "v.vec": "phase\n", "one.sim": SIM + "e g a b 1 1 0 0\n"}


class Text:
    """A text: a head, pieces as many as there is room for, but `most` at most, and a tail. A piece may be a function of its number, and a head one of nothing.
    `last` is a regular expression of the last line of the report, `files` are further files, and `script` is the script, where it is no usual one."""

    def __init__(self, kind, name, head, piece, tail="", last=None, size=LONGEST, most=None, files=None, script=None):
        self.kind, self.name, self.head, self.piece, self.tail, self.last = kind, name, head, piece, tail, last
        self.size, self.most, self.files, self.script = size, most, files or {}, script

    def pieces(self, room):
        """The pieces that there is room for, some at a time."""
        room, number, chunk, held = room - len(self.tail), 0, [], 0
        while self.most is None or number < self.most:
            piece = self.piece(number) if callable(self.piece) else self.piece
            many = 1 if callable(self.piece) else max(min(CHUNK, room) // max(len(piece), 1), 1)
            many = many if self.most is None else min(many, self.most - number)
            if len(piece) > room or not piece:
                break
            chunk.append(piece * many)
            room, number, held = room - many * len(piece), number + many, held + many * len(piece)
            if held >= CHUNK:
                yield "".join(chunk)
                chunk, held = [], 0
        yield "".join(chunk)

    def write(self, path):
        with open(path, "w", encoding="latin1", newline="") as out:
            head = self.head() if callable(self.head) else self.head
            out.write(head)
            for chunk in self.pieces(self.size - len(head)):
                out.write(chunk)
            out.write(self.tail)

    def prepare(self, folder):
        """Writes the files of a run, and its script."""
        for name, text in {**BESIDE, **self.files}.items():
            (folder / name).write_text(text, encoding="latin1")
        if self.kind == "script":
            self.write(folder / "script")
        else:
            self.write(folder / ("h.mag" if self.kind == "load" else f"h.{self.kind}"))
            (folder / "script").write_text(self.script or STARTS[self.kind])


def labels(count):
    """A script of a cell with so many labels at one place."""
    return "tech two\nnew a\n" + "".join(f"label left 0 0 1 1 0 a{k}\n" for k in range(count))


def row(count):
    """A script of a cell with so many squares side by side."""
    return "tech two\nnew a\n" + "".join(f"paint left {2 * k} 0 {2 * k + 1} 1\n" for k in range(count))


def wires(count, width=9):
    """The beginning of a cell of so many wires, one over the other."""
    return "magic\n<< left >>\n" + "".join(f"rect 0 {2 * k} {width} {2 * k + 1}\n" for k in range(count))


def nodes(count):
    """The beginning of a circuit file of so many nodes."""
    return EXT + "".join(f'node "n{k}" 0 0 0 0 left\n' for k in range(count))


def chain(depth, below, line):
    """Cells or circuit files, each of which uses the one before: their texts by name, of which the last is that of `h`."""
    names = [f"c{k}" for k in range(depth - 1)] + ["h"]
    return {name: below if k == 0 else line(names[k - 1]) for k, name in enumerate(names)}


def mag_chain(depth, uses, root=""):
    """A chain of cells, each with so many uses of the one before, and a line behind the use of the root."""
    def cell(name):
        lines = "".join(f"use {name} u{k}\n@transform 1 0 {5 * k} 0 1 0\nbox 0 0 0 0\n" for k in range(uses))
        return f"magic\n{lines}<< end >>\n"
    files = chain(depth, CELL, cell)
    return {f"{name}.mag": text.replace("@", root if name == "h" else "") for name, text in files.items()}


def ext_chain(depth, ids, root):
    """A chain of circuit files, each with one use of the one before, and further lines in the root."""
    files = chain(depth, EXT_2 + 'node "a" 0 0 0 0 left\nnode "b" 0 0 0 0 left\n', lambda name: f"{EXT_2}use {name} {ids} {ONE}\n")
    return {f"{name}.ext": text for name, text in files.items() if name != "h"}, files["h"].replace(f"{ids} ", root + " ", 1)


def merged(lines):
    """999 by 1,000 elements, each with so many merges of its one node with itself."""
    return {
        "m0.ext": LEAF + 'merge "a" "a" 0\n' * lines,
        "m1.ext": f"{EXT_2}use m0 u[0:999:0][0:0:0] {ONE}\n",
    }


def many_uses(count, shift):
    return lambda k: f"use l u{k}\ntransform 1 0 {shift * k} 0 1 0\nbox 0 0 0 0\n"


def placed(count, shift=0):
    """A script of a cell with so many uses."""
    return "tech two\nnew l\npaint left 0 0 4 1\nnew c\n" + "".join(f"place l u{k} 1 0 {shift * k} 0 1 0\n" for k in range(count))


def users(count):
    """A script of a cell that so many cells use."""
    return "tech two\nnew b\n" + "".join(f"new c{k}\nplace b u {ONE}\n" for k in range(count)) + "edit b\n"


def chained(depth):
    """A script of a chain of cells, of which the lowest is edited then."""
    return "tech two\nnew c0\n" + "".join(f"new c{k}\nplace c{k - 1} u {ONE}\n" for k in range(1, depth)) + "edit c0\n"


def scattered(k):
    """A square at a place that looks random, another for each number below 2^18."""
    x, y = 2 * (k * 167957 % (1 << 18)), 2 * (k * 97561 % (1 << 18))
    return f"rect {x} {y} {x + 1} {y + 1}\n"


SCRIPTS = [
    Text("script", "words of one letter", "", "a ", last="line 1: E1 bad word"),
    Text("script", "words of one letter, a line each", "", "a\n", last="line 8388608: E1 bad word"),
    Text("script", "one word", "", "a", last="line 1: E1 bad word"),
    Text("script", "blanks", "", " "),
    Text("script", "blank lines", "", "\n"),
    Text("script", "one remark", "", "#"),
    Text("script", "remarks", "", "#\n"),
    Text("script", "carriage returns", "", "\r", last="line 1: E1 bad word"),
    Text("script", "bytes 0", "", "\0", last="line 1: E1 bad word"),
    Text("script", "lines before a technology", "", "new a\n", last="line .*: E4 no technology"),
    Text("script", "new of one name", "tech two\n", "new a\n", last="line .*: E9 cell exists a"),
    Text("script", "new of many names", "tech two\n", lambda k: f"new c{k}\n", last="line .*: E18 too many Cells"),
    Text("script", "new of long names", "tech two\n", lambda k: f"new {k:064}\n", last="line .*: E18 too many Cells"),
    Text("script", "edit of one cell", "tech two\nnew a\n", "edit a\n", last="ok"),
    Text("script", "extract of one cell", "tech two\nnew a\n", "extract a\n", last="extract a: 0 cells"),
    Text("script", "squares of one cell", "tech two\nnew a\n", "squares a\n", last="clean a"),
    Text("script", "nodes of one cell", "tech two\nnew a\npaint left 0 0 1 1\n", "nodes a\n", last='node "left_0_0#" .*'),
    Text("script", "load of a file that is not there", "tech two\n", "load z\n", last="line .*: E6 no file z.mag"),
    Text("script", "a number of zeros", "tech two\nnew a\npaint left 0 0 1 ", "0", "1\n"),
    Text("script", "a label", "tech two\nnew a\nlabel left 0 0 0 0 0 ", "a", last="line 3: E2 bad form"),
    Text("script", "paint at one place", "tech two\nnew a\n", "paint left 0 0 1 1\n", last="ok"),
    Text("script", "paint and erase", "tech two\nnew a\n", "paint left 0 0 9 9\nerase left 1 1 8 8\n", last="ok"),
    Text("script", "squares in a row", "tech two\nnew a\n", lambda k: f"paint left {2 * k} 0 {2 * k + 1} 1\n", "nodes a\n"),
    Text("script", "a staircase of two layers", "tech two\nnew a\n", lambda k: f"paint {'left' if k % 2 else 'right'} {k} {k} {k + 9} {k + 9}\n", "nodes a\n"),
    Text("script", "wires over each other", "tech two\nnew a\n", lambda k: f"paint left 0 {2 * k} 60000000 {2 * k + 1}\n", "nodes a\n"),
    Text("script", "labels at one place", "tech two\nnew a\npaint left 0 0 1 1\n", "label left 0 0 1 1 0 a\n", "nodes a\nextract a\n"),
    Text("script", "labels of many texts at one place", "tech two\nnew a\npaint left 0 0 1 1\n", lambda k: f"label left 0 0 1 1 0 a{k}\n",
         "nodes a\nextract a\n"),
    Text("script", "labels added and taken away", "tech two\nnew a\n", "label left 0 0 1 1 0 a\nunlabel a\n", last="ok"),
    Text("script", "unlabel among 100,000 labels, 100,000 times", lambda: labels(100000),
         "label left 0 0 1 1 0 a\nunlabel a\n", most=100000, last="ok"),
    Text("script", "unlabel of no label of 100,000, 100,000 times", lambda: labels(100000),
         "unlabel a\n", most=100000, last="line .*: E17 no label a"),
    Text("script", "erase beside 100,000 labels, 50,000 times", lambda: labels(100000), "paint left 0 0 9 9\nerase left 0 0 9 9\n", most=50000, last="ok"),
    Text("script", "erase beside 100,000 squares, 50,000 times", lambda: row(100000), "paint left 0 0 1 1\nerase left 0 0 1 1\n", most=50000, last="ok"),
    Text("script", "places of one cell", "tech two\nnew l\npaint left 0 0 4 1\nnew c\n", lambda k: f"place l u{k} {ONE}\n", "save c\n", last="save c"),
    Text("script", "a use moved", lambda: placed(1), "move u0 1 0\nmove u0 -1 0\n", last="ok"),
    Text("script", "a use of 65,535 moved 100,000 times", lambda: placed(65535), "move u0 1 0\nmove u0 -1 0\n", most=50000, last="ok"),
    Text("script", "an array of 65,535 made 100,000 times", lambda: placed(65535), "array u0 0 9 1 0 9 1\narray u0 0 8 1 0 9 1\n", most=50000, last="ok"),
    Text("script", "an array of a million made again", lambda: placed(1), "array u0 0 999998 0 0 0 0\narray u0 0 0 0 0 999998 0\n", last="ok"),
    Text("script", "a use placed and deleted", lambda: placed(0), f"place l u {ONE}\ndelete u\n", last="ok"),
    Text("script", "a use placed and deleted among 65,534, 100,000 times", lambda: placed(65534), f"place l u {ONE}\ndelete u\n",
         most=100000, last="ok"),
    Text("script", "the first use of 65,534 replaced, 60,000 times", lambda: placed(65534),
         lambda k: f"delete u{k}\nplace l u{k} {ONE}\n", most=60000, last="ok"),
    Text("script", "paint below 60 cells, 100,000 times", lambda: chained(60), lambda k: f"paint left {2 * k} 0 {2 * k + 1} 1\n", most=100000, last="ok"),
    Text("script", "paint in a cell that 60,000 use, 1,000 times", lambda: users(60000),
         lambda k: f"paint left {2 * k} 0 {2 * k + 1} 1\n", most=1000, last="ok"),
    Text("script", "paint in place in a cell that 60,000 use, 100,000 times", lambda: users(60000), "paint left 0 0 1 1\n", most=100000, last="ok"),
    Text("script", "a cell edited and extracted, 3,000 times", "tech two\nnew a\n", lambda k: f"paint left {2 * k} 0 {2 * k + 1} 1\nextract a\n", most=3000),
    Text("script", "500 rows of 500 tiles", "tech nm\n", "generate 500\n", most=1, files={"nm.tech": (DATA / "nm.tech").read_text()}, last="generate 500: .*"),
    Text("script", "generate again", "tech nm\n", "generate 1\n", files={"nm.tech": (DATA / "nm.tech").read_text()}, last="line .*: E9 cell exists gtile"),
]
TECHNOLOGIES = [
    Text("tech", "blank lines", "", "\n", last="line 1: E5 h.tech .* T1 tech"),
    Text("tech", "remarks", "", "#\n", last="line 1: E5 h.tech .* T1 tech"),
    Text("tech", "one word", "", "a", last="line 1: E5 h.tech 1 T11"),
    Text("tech", "words of one letter", "", "a ", last="line 1: E5 h.tech 1 T11"),
    Text("tech", "words of one letter, a line each", "", "a\n", last="line 1: E5 h.tech .* T11"),
    Text("tech", "a section that is skipped", "odd\n", " a b\n", "end\n" + TWO, last="tech two: 2 types .*"),
    Text("tech", "sections that are skipped", "", "odd\nend\n", TWO, last="tech two: 2 types .*"),
    Text("tech", "sections of many names", "", lambda k: f"odd{k}\nend\n", TWO, last="tech two: 2 types .*"),
    Text("tech", "planes", "tech\n two\nend\nplanes\n", lambda k: f" p{k}\n", last="line 1: E5 h.tech .* T10 planes"),
    Text("tech", "types", TO_TYPES, lambda k: f" wire t{k}\n", last="line 1: E5 h.tech .* T10 types"),
    Text("tech", "aliases of a layer", TO_TYPES + " wire left", lambda k: f",a{k}", TWO[TWO.index("\n wire right"):], last="tech two: 2 types .*"),
    Text("tech", "one alias again", TO_TYPES + " wire left", ",a", TWO[TWO.index("\n wire right"):], last="line 1: E5 h.tech .* T4 a"),
    Text("tech", "long aliases", TO_TYPES + " wire left", lambda k: f",{k:064}", TWO[TWO.index("\n wire right"):], last="tech two: 2 types .*"),
    Text("tech", "connect lines", CONNECT, " left right\n", TWO[TWO.index("end\nextract"):], last="tech two: 2 types .*"),
    Text("tech", "two lists of connect", lambda: CONNECT + " left" + ",left" * 1677000 + " left", ",right",
         "\n" + TWO[TWO.index("end\nextract"):], last="tech two: 2 types .*"),
    Text("tech", "connect lists of two", CONNECT, " left,right left,right\n", TWO[TWO.index("end\nextract"):], last="tech two: 2 types .*"),
    Text("tech", "a list of resist", EXTRACT + " resist left", ",right", " 100\nend\n", last="tech two: 2 types .*"),
    Text("tech", "resist lines", EXTRACT, " resist left 100\n", last="line 1: E5 h.tech .* T4 left"),
    Text("tech", "cap lines", EXTRACT + " resist left 1\n", " cap left 1 1\n", last="line 1: E5 h.tech .* T4 left"),
    Text("tech", "a list of fet", EXTRACT + " fet right left", ",left", " e GND!\nend\n", last="tech two: 2 types 0 classes 1 fets"),
    Text("tech", "lines of extract that are read over", EXTRACT, " step 1\n", "end\n", last="tech two: 2 types .*"),
    Text("tech", "a number of zeros", EXTRACT + " resist left ", "0", "1\nend\n"),
    Text("tech", "compose lines", TO_TYPES + " wire a\n wire b\n wire c\nend\ncompose\n", " compose c a b\n", last="line 1: E5 h.tech .* T4 c"),
]
CELLS = [
    Text("load", "blank lines", "magic\n", "\n", last="line 2: E7 h.mag .* M8"),
    Text("load", "remarks", "magic\n", "#\n", last="line 2: E7 h.mag .* M8"),
    Text("load", "one word", "", "a", last="line 2: E7 h.mag 1 M1"),
    Text("load", "words of one letter", "magic\n", "a ", last="line 2: E7 h.mag 2 M2"),
    Text("load", "<< alone", "magic\n", "<<\n", last="line 2: E7 h.mag 2 M2"),
    Text("load", "<< on one line", "magic\n", "<< ", last="line 2: E7 h.mag 2 M2"),
    Text("load", "groups of a layer", "magic\n", "<< left >>\n", "<< end >>\n", last="load h: 1 cells"),
    Text("load", "groups of labels", "magic\n", "<< labels >>\n", "<< end >>\n", last="load h: 1 cells"),
    Text("load", "a group that is read over", "magic\n<< properties >>\n", "a\n", "<< end >>\n", last="load h: 1 cells"),
    Text("load", "groups that are read over", "magic\n", "<< properties >>\n", "<< end >>\n", last="load h: 1 cells"),
    Text("load", "words behind the end", "magic\n<< end >>\n", "a ", last="load h: 1 cells"),
    Text("load", "header lines", "magic\n", "tech two\n", last="line 2: E7 h.mag 3 M2"),
    Text("load", "a number of zeros", "magic\ntimestamp ", "0", "\n<< end >>\n"),
    Text("load", "a number of a box", f"magic\nuse l u\ntransform {ONE}\nbox 0 0 0 ", "9", "\n<< end >>\n", last="load h: 2 cells"),
    Text("load", "further words of a use", "magic\nuse l u", " x", f"\ntransform {ONE}\nbox 0 0 0 0\n<< end >>\n", last="load h: 2 cells"),
    Text("load", "uses past the limit", "magic\n", many_uses(0, 0), "<< end >>\n", last="line 2: E18 too many Uses"),
    Text("load", "uses of one id", "magic\n", f"use l u\ntransform {ONE}\nbox 0 0 0 0\n", last="line 2: E7 h.mag 5 M7"),
    Text("load", "triangles", "magic\n", "tri 0 0 2 2\n", last="line 2: E7 h.mag 2 M9"),
    Text("mag", "rectangles at one place", "magic\n<< left >>\n", "rect 0 0 1 1\n", "<< end >>\n", last="save h"),
    Text("mag", "rectangles in a row", "magic\n<< left >>\n", lambda k: f"rect {2 * k} 0 {2 * k + 1} 1\n", "<< end >>\n", last="save h"),
    Text("mag", "rectangles corner to corner", "magic\n<< left >>\n", lambda k: f"rect {k} {k} {k + 1} {k + 1}\n", "<< end >>\n", last="save h"),
    Text("mag", "rectangles in a random order", "magic\n<< left >>\n", scattered, "<< end >>\n", most=1 << 18, last="save h"),
    Text("mag", "rectangles within each other", "magic\n<< left >>\n", lambda k: f"rect {k} {k} {2000000 - k} {2000000 - k}\n", "<< end >>\n", last="save h"),
    Text("mag", "frames of two layers within each other, 100,000", "magic\n",
         lambda k: f"<< {'left' if k % 2 else 'right'} >>\nrect {k} {k} {400000 - k} {400000 - k}\n", "<< end >>\n", most=100000, last="save h"),
    Text("mag", "wires over each other", "magic\n<< left >>\n", lambda k: f"rect 0 {2 * k} 60000000 {2 * k + 1}\n", "<< end >>\n", last="save h"),
    Text("mag", "700 wires that cross 700", wires(700, 1400) + "<< right >>\n",
         lambda k: f"rect {2 * k} 0 {2 * k + 1} 1400\n", "<< end >>\n", most=700, last="save h"),
    Text("mag", "a comb", "magic\n<< left >>\nrect 0 0 60000000 1\n", lambda k: f"rect {2 * k} 1 {2 * k + 1} 900\n", "<< end >>\n", last="save h"),
    Text("mag", "a snake", "magic\n<< left >>\n",
         lambda k: f"rect 0 {2 * k} 9 {2 * k + 1}\nrect {8 * (k % 2)} {2 * k + 1} {8 * (k % 2) + 1} {2 * k + 2}\n", "<< end >>\n", last="save h"),
    Text("mag", "labels at one place", "magic\n<< left >>\nrect 0 0 1 1\n<< labels >>\n", "rlabel left 0 0 1 1 0 a\n", "<< end >>\n", last="save h"),
    Text("mag", "labels of many texts at one place", "magic\n<< left >>\nrect 0 0 1 1\n<< labels >>\n",
         lambda k: f"rlabel left 0 0 1 1 0 a{k}\n", "<< end >>\n", last="save h"),
    Text("mag", "labels of no node", "magic\n<< labels >>\n", "rlabel left 0 0 1 1 0 a\n", "<< end >>\n", last="save h"),
    Text("mag", "large labels", "magic\n<< left >>\nrect 0 0 1 1\n<< labels >>\n",
         "rlabel left -60000000 -60000000 60000000 60000000 0 a\n", "<< end >>\n", last="save h"),
    Text("mag", "large labels over 100,000 wires, 100,000", lambda: wires(100000) + "<< labels >>\n",
         lambda k: f"rlabel right -9 -9 900000 900000 0 a{k}\n", "<< end >>\n", most=100000, last="save h"),
    Text("mag", "one global name on 200,000 wires", lambda: wires(200000) + "<< labels >>\n",
         lambda k: f"rlabel left 0 {2 * k} 9 {2 * k + 1} 0 a!\n", "<< end >>\n", most=200000, last="save h"),
    Text("mag", "uses at one place, 65,535", "magic\n", many_uses(0, 0), "<< end >>\n", most=65535),
    Text("mag", "uses in a row, 65,535", "magic\n", many_uses(0, 4), "<< end >>\n", most=65535),
    Text("mag", "an array of 999,999 at one place", f"magic\nuse l u\narray 0 999998 0 0 0 0\ntransform {ONE}\nbox 0 0 0 0\n", "", "<< end >>\n"),
    Text("mag", "an array of 999,999 in a row", f"magic\nuse l u\narray 0 999998 4 0 0 0\ntransform {ONE}\nbox 0 0 0 0\n", "", "<< end >>\n"),
    Text("mag", "60 cells deep and two wide", "", mag_chain(60, 2)["h.mag"], most=1, files=mag_chain(60, 2), script=STARTS["load"],
         last="line 2: E18 too many Elements"),
    Text("mag", "19 cells deep and two wide", "", mag_chain(19, 2)["h.mag"], most=1, files=mag_chain(19, 2)),
    Text("mag", "60 cells deep and an array of 16,000", "", mag_chain(60, 1, "array 0 15999 4 0 0 0\n")["h.mag"], most=1, files=mag_chain(60, 1)),
]
PATHS_60, ROOT_60 = ext_chain(60, "u", "u[0:15999:0][0:0:0]")
PATHS_LONG, ROOT_LONG = ext_chain(60, "u" * 64, "u[0:15999:0][0:0:0]")
DEEP = "u/" * 58
CIRCUITS = [
    Text("ext", "blank lines", EXT, "\n", last="sim h: 0 nodes 0 switches"),
    Text("ext", "one word", "", "a", last="line 1: E23 h.ext 1 X1"),
    Text("ext", "words of one letter", EXT, "a ", last="line 1: E23 h.ext 4 X1"),
    Text("ext", "words of one letter, a line each", EXT, "a\n", last="line 1: E23 h.ext 4 X1"),
    Text("ext", "header lines", EXT, "tech two\n", last="line 1: E23 h.ext 4 X4"),
    Text("ext", "a timestamp of words", EXT + "timestamp", " a", last="sim h: 0 nodes 0 switches"),
    Text("ext", "classes", "tech two\nversion 1\nresistclasses", " 1", last="line 1: E23 h.ext 3 X5"),
    Text("ext", "a number of zeros", EXT + 'node "a" 0 ', "0", " 0 0 left\n"),
    Text("ext", "a number of nines", EXT + 'node "a" 0 ', "9", " 0 0 left\n", last="line 1: E23 h.ext 4 X5"),
    Text("ext", "a name", EXT + 'node "', "a", '" 0 0 0 0 left\n', last="sim h: 1 nodes 0 switches"),
    Text("ext", "nodes", EXT, lambda k: f'node "n{k}" 0 0 0 0 left\n', last="sim h: .* nodes 0 switches"),
    Text("ext", "one node again", LEAF, 'node "a" 0 0 0 0 left\n', last="line 1: E23 h.ext 5 X4"),
    Text("ext", "other names of one node", LEAF, lambda k: f'equiv "a" "a{k}"\n', last="sim h: 1 nodes 0 switches"),
    Text("ext", "other names of other names", LEAF + 'equiv "a" "a0"\n', lambda k: f'equiv "a{k}" "a{k + 1}"\n', last="sim h: 1 nodes 0 switches"),
    Text("ext", "long other names", LEAF, lambda k: f'equiv "a" "{k:065000}"\n', last="sim h: 1 nodes 0 switches"),
    Text("ext", "merges of one node", LEAF, 'merge "a" "a" 0\n', last="sim h: 1 nodes 0 switches"),
    Text("ext", "a chain of merges", lambda: nodes(300001), lambda k: f'merge "n{k}" "n{k + 1}" 0\n', most=300000,
         last="sim h: 1 nodes 0 switches"),
    Text("ext", "a star of merges", lambda: nodes(300001), lambda k: f'merge "n{k}" "n300000" 0\n', most=300000,
         last="sim h: 1 nodes 0 switches"),
    Text("ext", "uses of one cell, 65,535", EXT, lambda k: f"use l u{k} {ONE}\n", most=65535, last="sim h: 65535 nodes 0 switches"),
    Text("ext", "uses of one cell", EXT, lambda k: f"use l u{k} {ONE}\n", last="line 1: E23 h.ext 65539 X5"),
    Text("ext", "arrays of one cell, 65,535", EXT_2, lambda k: f"use l u{k}[0:14:0][0:0:0] {ONE}\n", most=65535, last="sim h: 983025 nodes 0 switches"),
    Text("ext", "arrays of a million that share elements", EXT_2, lambda k: f"use l u[{k}:{k + 999999}:0][0:0:0] {ONE}\n", last="line 1: E23 h.ext 5 X7"),
    Text("ext", "rows of elements of one id", EXT_2, lambda k: f"use l u[0:14:0][{k}:{k}:0] {ONE}\n", most=65535, last="sim h: 983025 nodes 0 switches"),
    Text("ext", "uses of cells that are not there", EXT, lambda k: f"use z{k} u{k} {ONE}\n", most=65535, last="line 1: E6 no file z0.ext"),
    Text("ext", "transistors of one node", LEAF, 'fet e 0 0 1 1 1 4 "s" "a" 0 0 "a" 2 0 "a" 2 0\n', last="sim h: 1 nodes .* switches"),
    Text("ext", "a transistor of one node again and again", LEAF + 'fet e 0 0 1 1 1 4 "s" "a" 0 0', ' "a" 2 0', "\n", last="sim h: 1 nodes 1 switches"),
    Text("ext", "a transistor of 300,000 terminals", lambda: nodes(300000) + 'fet e 0 0 1 1 1 4 "s" "n0" 0 0', lambda k: f' "n{k}" 2 0', "\n", most=300000,
         last="line 1: E18 too many Switches"),
    Text("ext", "a transistor of 1,448 terminals", lambda: nodes(1448) + 'fet e 0 0 1 1 1 4 "s" "n0" 0 0', lambda k: f' "n{k}" 2 0', "\n", most=1448,
         last="sim h: 1448 nodes 1047628 switches"),
    Text("ext", "a transistor of 1,449 terminals", lambda: nodes(1449) + 'fet e 0 0 1 1 1 4 "s" "n0" 0 0', lambda k: f' "n{k}" 2 0', "\n", most=1449,
         last="line 1: E18 too many Switches"),
    Text("ext", "67 merges in each of 999,000 elements", f"{EXT_2}use m1 u[0:998:0][0:0:0] {ONE}\n", "\n", most=1, files=merged(67),
         last="sim h: 999000 nodes 0 switches"),
    Text("ext", "68 merges in each of 999,000 elements", f"{EXT_2}use m1 u[0:998:0][0:0:0] {ONE}\n", "\n", most=1, files=merged(68),
         last="line 1: E18 too many Merges"),
    Text("ext", "ranges of 1,000 merges, 67,000 lines", f'{EXT_2}use l u[0:999:0][0:0:0] {ONE}\nnode "a" 0 0 0 0 left\n',
         'merge "a" "u[0:999,0]/a" 0\n', most=67000, last="sim h: 1 nodes 0 switches"),
    Text("ext", "ranges of 1,000 merges", f'{EXT_2}use l u[0:999:0][0:0:0] {ONE}\nnode "a" 0 0 0 0 left\n', 'merge "a" "u[0:999,0]/a" 0\n',
         last="line 1: E18 too many Merges"),
    Text("ext", "a global name in each of 999,999 elements", f"{EXT_2}use g u[0:999998:0][0:0:0] {ONE}\n", "\n", most=1,
         files={"g.ext": EXT + 'node "a!" 0 0 0 0 left\n'}, last="sim h: 1 nodes 0 switches"),
    Text("ext", "60 cells deep and an array of 16,000", ROOT_60, "\n", most=1, files=PATHS_60, last="sim h: 32000 nodes 0 switches"),
    Text("ext", "60 cells deep with the longest ids and an array of 16,000", ROOT_LONG, "\n", most=1, files=PATHS_LONG, last="line 1: E18 too many Names"),
    Text("ext", "merges by paths of 60 names", ROOT_60, f'merge "u[0,0]/{DEEP}a" "u[1,0]/{DEEP}b" 0\n', files=PATHS_60, last="sim h: 31999 nodes 0 switches"),
    Text("ext", "ranges by paths of 60 names, 4,000 lines", ROOT_60, f'merge "u[0,0]/{DEEP}a" "u[0:15999,0]/{DEEP}a" 0\n', most=4000, files=PATHS_60,
         last="sim h: 16001 nodes 0 switches"),
]
SIMS = [
    Text("sim", "blank lines", SIM, "\n", last="phase 1 settled 0"),
    Text("sim", "lines that begin with a bar", SIM, "|\n", last="phase 1 settled 0"),
    Text("sim", "one word", "", "a", last="line 1: E25 h.sim 1 S1"),
    Text("sim", "words of one letter", SIM, "a ", last="line 1: E25 h.sim 2 S2"),
    Text("sim", "= lines", SIM, "= a b\n", last="phase 1 settled 0"),
    Text("sim", "= lines of one name", SIM, lambda k: f"= a a{k}\n", last="phase 1 settled 0"),
    Text("sim", "= lines in a chain", SIM, lambda k: f"= a{k} a{k + 1}\n", last="phase 1 settled 0"),
    Text("sim", "= lines in a chain, upward", SIM, lambda k: f"= a{k + 1} a{k}\n", last="phase 1 settled 0"),
    Text("sim", "= lines in a chain from behind", SIM, lambda k: f"= a{900000 - k} a{900001 - k}\n", last="phase 1 settled 0"),
    Text("sim", "= lines by halves", SIM, lambda k: f"= a{(k ^ 1) // 2} a{k}\n", last="phase 1 settled 0"),
    Text("sim", "= lines of the longest names", SIM, lambda k: f"= a {k:065535}\n", last="phase 1 settled 0"),
    Text("sim", "a name that is too long", SIM + "= a ", "b", last="line 1: E25 h.sim 2 S5"),
    Text("sim", "capacitances of one node", SIM, "C a GND! 1\n", last="phase 1 settled 0"),
    Text("sim", "capacitances past the nodes", SIM, lambda k: f"C {k:x} GND! 1\n", last="line 1: E18 too many Nodes|phase 1 settled 0"),
    Text("sim", "switches of one node", SIM, "e a a a 1 1 0 0\n", last="phase 1 settled [01]"),
    Text("sim", "switches of three nodes", SIM, "e g a b 1 1 0 0\n", last="phase 1 settled [01]"),
    Text("sim", "switches in a chain", SIM, lambda k: f"d g n{k} n{k + 1} 1 1 0 0\n",
         files={"v.vec": "set n0 1\nphase\nset n0 0\nphase\n"}, last="phase 2 settled 1"),
    Text("sim", "a star of switches", SIM, lambda k: f"e g s n{k} 1 1 0 0\n",
         files={"v.vec": "set s 1\nset g 1\nphase\nset s 0\nphase\n"}, last="phase 2 settled 1"),
    Text("sim", "inverters in a chain", SIM, lambda k: f"e n{k} GND! n{k + 1} 1 1 0 0\nd g Vdd! n{k + 1} 1 1 0 0\n",
         files={"v.vec": "set n0 1\nphase\nset n0 0\nphase\n"}),
    Text("sim", "a number of zeros", SIM + "C a GND! ", "0", "\n", last="phase 1 settled 0"),
]
VECTORS = [
    Text("vec", "blank lines", "", "\n"),
    Text("vec", "remarks", "", "#\n"),
    Text("vec", "one word", "", "a", last="line 1: E21 vector 1"),
    Text("vec", "words of one letter", "", "a ", last="line 1: E21 vector 1"),
    Text("vec", "phases", "", "phase\n", last="phase .* settled 0"),
    Text("vec", "set of one node", "", "set a 1\n"),
    Text("vec", "set of one node and phases", "", "set a 1\nphase\nset a 0\nphase\n"),
    Text("vec", "free of one node", "", "free a\n"),
    Text("vec", "size of one node", "", "size a 1\n"),
    Text("vec", "show of one node", "", "show a\n", last="a=X"),
    Text("vec", "show of one node on one line", "show", " a", last="a=X"),
    Text("vec", "show of a name that is not there, last", "show", " a", " z\n", last="line 1: E20 no node 1 z"),
    Text("vec", "a level of zeros", "set a ", "0", last="line 1: E21 vector 1"),
]
TEXTS = SCRIPTS + TECHNOLOGIES + CELLS + CIRCUITS + SIMS + VECTORS


def last_line(path):
    """The last line of a report, its first bytes."""
    with open(path, "rb") as report:
        size = report.seek(0, 2)
        report.seek(max(size - 400, 0))
        return report.read().decode("latin1").rstrip("\n").split("\n")[-1]


def measured(text, options):
    """Runs the script of a text, and prints its row. The answer is whether it ended as it is to."""
    with tempfile.TemporaryDirectory() as made:
        folder = Path(made)
        text.prepare(folder)
        ending = ran([options.program], folder / "script", folder / "report", folder / "complaint", folder, int(1.2 * options.seconds), options.stack * 1024)
        last = last_line(folder / "report")
    faults = [] if ending.seconds <= options.seconds else ["seconds"]
    faults += [] if ending.megabytes <= options.megabytes else ["megabytes"]
    faults += [] if ending.status in (0, 1) and re.fullmatch(text.last or ".*", last) else ["ending"]
    row = f"{text.kind:<6} {text.name:<60} {ending.seconds:>7.2f} {ending.megabytes:>6.0f}  {ending.status}: {last[:60]}"
    print(row + "".join(f"  PAST: {fault}" for fault in faults), flush=True)
    return not faults


def main():
    parser = argparse.ArgumentParser(description=__doc__.split("\n")[0])
    parser.add_argument("--only", default="", help="those whose kind and name have these words")
    parser.add_argument("--seconds", type=float, default=10)
    parser.add_argument("--megabytes", type=float, default=1024)
    parser.add_argument("--stack", type=int, default=0)
    parser.add_argument("--program", default=str(PROGRAM))
    options = parser.parse_args()
    print(f"{'kind':<6} {'text':<60} {'s':>7} {'MB':>6}  ended with")
    ended = [measured(text, options) for text in TEXTS if options.only in f"{text.kind} {text.name}"]
    print(f"{len(ended)} texts, {ended.count(False)} past a mark")
    return min(ended.count(False), 1)


if __name__ == "__main__":
    sys.exit(main())
