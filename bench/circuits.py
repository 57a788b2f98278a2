#!/usr/bin/env python3
"""Times `ext2sim` on trees of circuit files that are made from a number, and `sim` on cells of rectangles.

    bench/circuits.py [--trees 10000,100000,1000000] [--cells 5000,10000,20000] [--program PATH]

A tree has as many records of nodes: leaves of 100 nodes, 100 of them in a row, and rows in the root; in `chains` every node is joined with the one of
the next leaf by a merge. A cell is a comb of transistors, whose load is timed by itself and taken off, or a row of them with taps between, which is loaded alone. For each it
prints seconds, peak megabytes, and the power of n by which time grew.
"""
import argparse
import math
import tempfile
from pathlib import Path

from bench import PROGRAM, timed

HEADER = "tech nm\ntimestamp 0\nversion 1\nstyle nm\nscale 1 1 1\nresistclasses 30000 10000 30\n"
NODES_OF_A_LEAF = 100
LEAVES_OF_A_ROW = 100

NM = """tech
 nm
end
planes
 active
 metal
end
types
 active poly
 active diff
 active efet
 active tap
end
compose
 compose efet poly diff
end
connect
 poly,efet poly,efet
 diff diff
end
extract
 resist poly 30000
 resist diff 10000
 cap poly 400 100
 cap diff 1000 200
 fet efet diff efet GND!
end
"""


def leaf():
    """A cell of nodes in a row, in pairs with a transistor between them."""
    nodes = [f'node "n{k}" 0 1000 {4 * k} 0 diff 0 0 4 8 0 0' for k in range(NODES_OF_A_LEAF)]
    fets = [f'fet efet {4 * k} 2 {4 * k + 1} 3 4 8 "GND!" "n{k}" 4 0 "n{k}" 2 0 "n{k + 1}" 2 0' for k in range(0, NODES_OF_A_LEAF, 2)]
    return HEADER + "\n".join(nodes + fets) + "\n"


def uses(cell, name, count):
    return "".join(f"use {cell} {name}{k} 1 0 {1000 * k} 0 1 0\n" for k in range(count))


def plain(count):
    """Leaves that share nothing."""
    rows = max(count // (NODES_OF_A_LEAF * LEAVES_OF_A_ROW), 1)
    leaves = min(count // NODES_OF_A_LEAF, LEAVES_OF_A_ROW)
    return {"leaf": leaf(), "row": HEADER + uses("leaf", "l", leaves), "root": HEADER + uses("row", "r", rows)}


def chains(count):
    """The same, each node joined with that of the next leaf of its row."""
    files = plain(count)
    leaves = files["row"].count("\nuse ")
    merges = [f'merge "l{k}/n{n}" "l{k + 1}/n{n}" -10 0 0 0 -2 0 0' for k in range(leaves - 1) for n in range(NODES_OF_A_LEAF)]
    files["row"] += "".join(merge + "\n" for merge in merges)
    return files


def comb(count, folder):
    """A cell of so many transistors: poly over a strip of diffusion, each a node of its own."""
    (folder / "nm.tech").write_text(NM)
    rects = "".join(f"rect {4 * k} 0 {4 * k + 2} 6\n" for k in range(count))
    (folder / "comb.mag").write_text(
        f"magic\ntech nm\ntimestamp 0\n<< diff >>\nrect -2 2 {4 * count} 4\n<< poly >>\n{rects}<< end >>\n")
    (folder / "load.script").write_text("tech nm\nload comb\n")
    (folder / "run.script").write_text("tech nm\nload comb\nsim comb\n")


def row(count, folder):
    """A cell of so many transistors as in the comb, with a tap in the diffusion between each two."""
    (folder / "nm.tech").write_text(NM)
    taps = "".join(f"rect {8 * k + 4} 2 {8 * k + 6} 4\n" for k in range(count))
    wires = "".join(f"rect {8 * k} -2 {8 * k + 2} 8\n" for k in range(count))
    (folder / "row.mag").write_text(
        f"magic\ntech nm\ntimestamp 0\n<< diff >>\nrect 0 0 {8 * count} 6\n<< tap >>\n{taps}<< poly >>\n{wires}<< end >>\n")
    (folder / "row.script").write_text("tech nm\nload row\n")


def grown(before, size, seconds):
    return f"n^{math.log(seconds / before[1]) / math.log(size / before[0]):.2f}" if before and seconds > 0 and before[1] > 0 else ""


def main():
    parser = argparse.ArgumentParser(description=__doc__.split("\n")[0])
    parser.add_argument("--trees", default="10000,100000,1000000")
    parser.add_argument("--cells", default="5000,10000,20000")
    parser.add_argument("--program", default=str(PROGRAM))
    options = parser.parse_args()
    print(f"{'what':>10} {'size':>9} {'s':>8} {'MB':>7}  growth")
    for name, make in {"plain": plain, "chains": chains}.items():
        before = None
        for size in map(int, options.trees.split(",")):
            with tempfile.TemporaryDirectory() as folder:
                for cell, text in make(size).items():
                    (Path(folder) / f"{cell}.ext").write_text(text)
                (Path(folder) / "run.script").write_text("ext2sim root\n")
                run = timed([options.program], Path(folder) / "run.script", folder)
            assert run.status == 0, run.status
            print(f"{name:>10} {size:>9} {run.seconds:>8.2f} {run.megabytes:>7.0f}  {grown(before, size, run.seconds)}", flush=True)
            before = (size, run.seconds)
    loaded = before = None
    for size in map(int, options.cells.split(",")):
        with tempfile.TemporaryDirectory() as folder:
            comb(size, Path(folder))
            load = timed([options.program], Path(folder) / "load.script", folder)
            run = timed([options.program], Path(folder) / "run.script", folder)
        assert load.status == run.status == 0
        seconds = run.seconds - load.seconds
        print(f"{'load comb':>10} {size:>9} {load.seconds:>8.2f} {load.megabytes:>7.0f}  {grown(loaded, size, load.seconds)}", flush=True)
        print(f"{'sim comb':>10} {size:>9} {seconds:>8.2f} {run.megabytes:>7.0f}  {grown(before, size, seconds)}", flush=True)
        loaded, before = (size, load.seconds), (size, seconds)
    before = None
    for size in map(int, options.cells.split(",")):
        with tempfile.TemporaryDirectory() as folder:
            row(size, Path(folder))
            load = timed([options.program], Path(folder) / "row.script", folder)
        assert load.status == 0, load.status
        print(f"{'load row':>10} {size:>9} {load.seconds:>8.2f} {load.megabytes:>7.0f}  {grown(before, size, load.seconds)}", flush=True)
        before = (size, load.seconds)


if __name__ == "__main__":
    main()
