#!/usr/bin/env python3
"""Times the extraction of hierarchies that are made from a number, and Magic on the same cells where it is installed.

    bench/hierarchies.py [--arrays 100,250,500] [--trees 10000,20000,40000] [--generate 100,500] [--program PATH] [--magic PATH]

An array has so many transistors in a row and in a column. A tree has so many elements: leaves of six transistors, sixteen leaves in a block, sixteen
blocks in a column, each column of cells of its own, and columns side by side. For each it prints the seconds and the most megabytes of a whole run
with `flat` and of one with `sim`; for a tree also the seconds of an `extract` after one leaf was edited, with those of the run before it taken off.
Beside them are Magic's seconds for `extract all` and `ext2sim`, its start-up taken off, and the power of n by which time grew.
"""
import argparse
import math
import shutil
import tempfile
from pathlib import Path

from bench import PROGRAM, TOP, timed

CROSSING = 6
LAYERS = {"poly": ("poly", "polysilicon"), "diff": ("diff", "ndiffusion")}


class Cell:
    """A cell of rectangles by their layers, of labels by their layers, and of uses: the child, the name, the displacement, and how often in a row and
    in a column, and how far apart."""

    def __init__(self, rects=(), uses=(), labels=()):
        self.rects, self.uses, self.labels = rects, uses, labels


def crossings(columns, rows):
    """Lines of poly over lines of diffusion: a transistor at each crossing."""
    wide, high = CROSSING * columns, CROSSING * rows
    poly = [("poly", (0, CROSSING * k + 2, wide, CROSSING * k + 4)) for k in range(rows)]
    return poly + [("diff", (CROSSING * k + 2, 0, CROSSING * k + 4, high)) for k in range(columns)]


def array(side):
    """A square array of one transistor that touches its neighbours, with a label on each of its three nodes."""
    labels = [("poly", (0, 2, 0, 4), "w"), ("diff", (2, 0, 4, 0), "b"), ("diff", (2, 6, 4, 6), "t")]
    return {"tile": Cell(crossings(1, 1), labels=labels), "top": Cell(uses=[("tile", "t", 0, 0, (side, side, CROSSING, CROSSING))])}


def tree(elements):
    """A tree of so many elements."""
    columns = max((elements - 1) // 273, 1)
    cells = {}
    for k in range(columns):
        cells[f"leaf{k}"] = Cell(crossings(2, 3))
        cells[f"block{k}"] = Cell(uses=[(f"leaf{k}", f"l{n}", 12 * (n % 4), 18 * (n // 4), None) for n in range(16)])
        cells[f"column{k}"] = Cell(uses=[(f"block{k}", f"b{n}", 0, 72 * n, None) for n in range(16)])
    cells["top"] = Cell(uses=[(f"column{k}", f"c{k}", 48 * k, 0, None) for k in range(columns)])
    return cells


def use_lines(use):
    child, name, x, y, grid = use
    lines = [f"use {child} {name}"]
    if grid:
        across, up, wide, high = grid
        lines.append(f"array 0 {across - 1} {wide} 0 {up - 1} {high}")
    return lines + ["timestamp 0", f"transform 1 0 {x} 0 1 {y}", "box 0 0 1 1"]


def mag_text(cell, tech, which):
    """The mag file of a cell, with layers by their names in the program or in Magic."""
    lines = ["magic", f"tech {tech}", "timestamp 1"]
    for layer in LAYERS:
        rects = [rect for name, rect in cell.rects if name == layer]
        if rects:
            lines += [f"<< {LAYERS[layer][which]} >>"] + ["rect %d %d %d %d" % rect for rect in rects]
    for use in cell.uses:
        lines += use_lines(use)
    if cell.labels:
        lines.append("<< labels >>")
    lines += ["rlabel %s %d %d %d %d 0 %s" % ((LAYERS[layer][which],) + area + (text,)) for layer, area, text in cell.labels]
    return "\n".join(lines + ["<< end >>"]) + "\n"


def write_cells(cells, tech, which, folder):
    for name, cell in cells.items():
        (folder / f"{name}.mag").write_text(mag_text(cell, tech, which))


def run_script(program, lines, folder):
    """A run of the program on a script; every line must be accepted."""
    (folder / "run.script").write_text("\n".join(["tech nm", "load top"] + lines) + "\n")
    run = timed([program], folder / "run.script", folder)
    assert run.status == 0, run.status
    return run


def run_magic(magic, cells, folder):
    """Extraction of a cell and of all below it, and a flat sim file; start-up is taken off."""
    write_cells(cells, "scmos", 1, folder)
    (folder / "none.tcl").write_text("quit -noprompt\n")
    (folder / "top.tcl").write_text("load top\nextract all\next2sim top\nquit -noprompt\n")
    command = [magic, "-dnull", "-noconsole", "-rcfile", "/dev/null", "-T", "scmos"]
    start = timed(command, folder / "none.tcl", folder)
    whole = timed(command, folder / "top.tcl", folder)
    return max(whole.seconds - start.seconds, 0.0), whole.megabytes


def after_an_edit(program, folder):
    """The seconds of an extraction after a leaf was edited."""
    edited = ["edit leaf0", "paint metal 0 0 4 4"]
    whole = min(run_script(program, ["extract top"] + edited + ["extract top"], folder).seconds for _ in range(3))
    return whole - min(run_script(program, ["extract top"] + edited, folder).seconds for _ in range(3))


def grown(before, size, seconds):
    return f"n^{math.log(seconds / before[1]) / math.log(size / before[0]):.2f}" if before else ""


def measure(kind, cells, size, before, options):
    """Prints a row, and returns its size and its seconds."""
    with tempfile.TemporaryDirectory() as name:
        folder = Path(name)
        (folder / "nm.tech").write_text((TOP / "crates/run_tests/data/nm.tech").read_text())
        write_cells(cells, "nm", 0, folder)
        flat, sim = (run_script(options.program, [f"{verb} top"], folder) for verb in ("flat", "sim"))
        again = "%8.2f" % after_an_edit(options.program, folder) if kind == "tree" else " " * 8
    other = ""
    if options.magic:
        with tempfile.TemporaryDirectory() as name:
            other = "%8.2f %6.0f" % run_magic(options.magic, cells, Path(name))
    print("%6s %8d %8.2f %6.0f %8.2f %6.0f %8s %15s  %s" % (kind, size, flat.seconds, flat.megabytes, sim.seconds, sim.megabytes, again, other,
                                                           grown(before, size, sim.seconds)), flush=True)
    return size, sim.seconds


def generate(rows, options):
    """Prints what `generate` takes."""
    with tempfile.TemporaryDirectory() as name:
        folder = Path(name)
        (folder / "nm.tech").write_text((TOP / "crates/run_tests/data/nm.tech").read_text())
        (folder / "run.script").write_text(f"tech nm\ngenerate {rows}\n")
        run = timed([options.program], folder / "run.script", folder)
    assert run.status == 0, run.status
    print("generate %d: %.2f s, %.0f MB" % (rows, run.seconds, run.megabytes), flush=True)


def main():
    parser = argparse.ArgumentParser(description=__doc__.split("\n")[0])
    parser.add_argument("--arrays", default="100,250,500", help="transistors in a row")
    parser.add_argument("--trees", default="10000,20000,40000", help="elements")
    parser.add_argument("--generate", default="100,500", help="rows")
    parser.add_argument("--program", default=str(PROGRAM))
    parser.add_argument("--magic", default=shutil.which("magic"), help="the path of Magic, or nothing to leave it out")
    options = parser.parse_args()
    print("%6s %8s %8s %6s %8s %6s %8s %15s  growth" % ("what", "size", "flat s", "MB", "sim s", "MB", "again s", "Magic s, MB"))
    before = None
    for side in map(int, filter(None, options.arrays.split(","))):
        before = measure("array", array(side), side * side, before, options)
    for rows in map(int, filter(None, options.generate.split(","))):
        generate(rows, options)
    before = None
    for elements in map(int, filter(None, options.trees.split(","))):
        before = measure("tree", tree(elements), elements, before, options)


if __name__ == "__main__":
    main()
