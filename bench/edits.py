#!/usr/bin/env python3
"""Times the built program on scripts that edit, save and load, made from a number.

    bench/edits.py [--sizes 10000,30000,60000] [--kinds paint,undo,undo-far] [--program PATH]

It prints for each kind of script seconds and growth from one size to the next (n to the power that is printed). For undo and redo it prints what so
many of them took in a cell of so many rectangles: the seconds of processor of the whole script less those of the same script without them.
"""
import argparse
import math
import resource
import subprocess
import tempfile
import time
from pathlib import Path

TOP = Path(__file__).resolve().parent.parent
PROGRAM = TOP / "crates/magex/out/magex"
IDENTITY = "1 0 0 0 1 0"


def paint(count):
    """Squares painted one by one, row by row."""
    side = math.isqrt(count)
    return ["new c"] + ["paint metal %d %d %d %d" % (6 * (k % side), 6 * (k // side), 6 * (k % side) + 4, 6 * (k // side) + 4) for k in range(count)]


def place(count):
    """Uses placed one by one in one cell."""
    return ["new l", "paint metal 0 0 4 1", "new c"] + ["place l u%d 1 0 %d 0 1 0" % (k, k) for k in range(count)]


def label(count):
    """Labels added one by one to one cell."""
    return ["new c", "paint metal 0 0 %d 1" % count] + ["label metal %d 0 %d 1 0 n%d" % (k, k + 1, k) for k in range(count)]


def below(count):
    """Paint at the bottom of a chain of 60 cells, one edit after another."""
    chain = ["new c0"]
    for k in range(1, 60):
        chain += ["new c%d" % k, "place c%d u %s" % (k - 1, IDENTITY)]
    return chain + ["edit c0"] + ["paint metal %d 0 %d 1" % (2 * k, 2 * k + 1) for k in range(count)]


def cells(count):
    """Cells made one by one, each with a use of the one before, in chains of 50."""
    lines = []
    for k in range(count):
        lines.append("new c%d" % k)
        if k % 50:
            lines.append("place c%d u %s" % (k - 1, IDENTITY))
    return lines


def save_and_load(count):
    """A cell with so many uses and rectangles, saved."""
    return place(count) + ["save c"]


SCRIPTS = {"paint": paint, "place": place, "label": label, "below": below, "cells": cells, "save": save_and_load}
STEPS = {"undo": 1, "undo-far": 7919}  # how many rectangles an edit is after the one before


def timed(program, script, folder):
    began = time.perf_counter()
    done = subprocess.run([program], input="\n".join(["tech nm"] + script) + "\n", text=True, capture_output=True, cwd=folder)
    seconds = time.perf_counter() - began
    refused = [line for line in done.stdout.split("\n") if line.startswith("line ")]
    assert not refused, refused[0]
    return seconds


def load_tree(program, count, folder):
    """A tree of files: a root, with as many cells below it in chains of 50."""
    for k in range(count):
        uses = ["use t%d u" % (k - 1), "transform " + IDENTITY, "box 0 0 0 0"] if k % 50 else []
        (folder / ("t%d.mag" % k)).write_text("\n".join(["magic", "<< metal >>", "rect 0 0 4 1"] + uses + ["<< end >>"]) + "\n")
    tops = [k for k in range(count) if k % 50 == 49 or k == count - 1]
    lines = ["magic"]
    for k in tops:
        lines += ["use t%d u%d" % (k, k), "transform " + IDENTITY, "box 0 0 0 0"]
    (folder / "top.mag").write_text("\n".join(lines + ["<< end >>"]) + "\n")
    return timed(program, ["load top"], folder)


def sheet(count):
    """A cell's file with so many rectangles, none of which touches another."""
    side = math.isqrt(count)
    rects = ["rect %d %d %d %d" % (6 * (k % side), 6 * (k // side), 6 * (k % side) + 4, 6 * (k // side) + 4) for k in range(count)]
    return "\n".join(["magic", "<< metal >>"] + rects + ["<< end >>"]) + "\n"


def crossed(count, rects, step):
    """Paint and erasure in turn over the rectangles of a sheet, each so many rectangles after the one before."""
    side = math.isqrt(rects) - 2
    lines = []
    for k in range(count):
        x, y = 6 * (k * step % side), 6 * (k * step // side % side)
        lines.append("%s metal %d %d %d %d" % ("erase" if k % 2 else "paint", x + 1, y + 1, x + 9, y + 9))
    return lines


def used(program, script, folder):
    """The seconds of processor that a script took."""
    before = resource.getrusage(resource.RUSAGE_CHILDREN)
    timed(program, script, folder)
    after = resource.getrusage(resource.RUSAGE_CHILDREN)
    return after.ru_utime + after.ru_stime - before.ru_utime - before.ru_stime


def undo_and_redo(program, sizes, step, folder):
    """Edits of a large cell, taken back and made again: the seconds of processor of each, for cells of two sizes."""
    for rects in (30000, 300000):
        (folder / "sheet.mag").write_text(sheet(rects))
        last = None
        for count in sizes:
            parts = [["load sheet"], crossed(count, rects, step), ["undo"] * count, ["redo"] * count]
            ends = [min(used(program, sum(parts[:k + 1], []), folder) for _ in range(3)) for k in range(len(parts))]
            spent = [max(after - before, 0.001) for before, after in zip(ends, ends[1:])]
            growth = ["n^%.2f" % (math.log(now / then) / math.log(count / last[0])) for now, then in zip(spent, last[1])] if last else [""] * 3
            told = ", ".join("%s %.2f s %s" % entry for entry in zip(("edits", "undos", "redos"), spent, growth))
            print("%d in a cell of %d rectangles, %d apart: %s" % (count, rects, step, told), flush=True)
            last = (count, spent)


def main():
    options = argparse.ArgumentParser(description=__doc__.split("\n")[0])
    options.add_argument("--sizes", default="10000,30000,60000")
    options.add_argument("--kinds", default=",".join(list(SCRIPTS) + ["tree"] + list(STEPS)))
    options.add_argument("--program", default=str(PROGRAM))
    given = options.parse_args()
    sizes = [int(size) for size in given.sizes.split(",")]
    with tempfile.TemporaryDirectory() as name:
        folder = Path(name)
        (folder / "nm.tech").write_text((TOP / "crates/run_tests/data/nm.tech").read_text())
        for kind in given.kinds.split(","):
            if kind in STEPS:
                undo_and_redo(given.program, sizes, STEPS[kind], folder)
                continue
            last = None
            for size in sizes:
                seconds = load_tree(given.program, size, folder) if kind == "tree" else timed(given.program, SCRIPTS[kind](size), folder)
                growth = "n^%.2f" % (math.log(seconds / last[1]) / math.log(size / last[0])) if last else ""
                print("%-6s %7d %8.2f s  %s" % (kind, size, seconds, growth), flush=True)
                last = (size, seconds)


if __name__ == "__main__":
    main()
