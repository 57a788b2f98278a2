#!/usr/bin/env python3
"""Times `squares` of the built program on hierarchies that are made from a number.

    bench/squares.py [--sizes 10000,40000,250000] [--program PATH]

A size is a number of elements. From each run the same one without its last line is taken off, the least of three each. It prints seconds, the most
memory and growth from one size to the next (n to the power that is printed).
"""
import argparse
import math
import os
import subprocess
import tempfile
import time
from pathlib import Path

TOP = Path(__file__).resolve().parent.parent
PROGRAM = TOP / "crates/magex/out/magex"
IDENTITY = "1 0 0 0 1 0"
TILE = ["new tile", "paint poly 0 2 6 4", "paint diff 2 0 4 6"]


def chip(count):
    """A square array of transistors that touch their neighbours on all sides."""
    side = math.isqrt(count)
    return TILE + ["new chip", "place tile t " + IDENTITY, "array t 0 %d 6 0 %d 6" % (side - 1, side - 1), "squares chip"]


def rows(count):
    """The same as an array of rows, every other one mirrored, each a cell of its own."""
    side = math.isqrt(count)
    lines = TILE + ["new row", "place tile t " + IDENTITY, "array t 0 %d 6 0 0 0" % (side - 1), "new chip"]
    for k in range(side):
        lines.append("place row r%d 1 0 0 0 %d %d" % ((k, 1, 6 * k) if k % 2 == 0 else (k, -1, 6 * k + 6)))
    return lines + ["squares chip"]


def apart(count):
    """Elements with room between them."""
    side = math.isqrt(count)
    return TILE + ["new chip", "place tile t " + IDENTITY, "array t 0 %d 10 0 %d 10" % (side - 1, side - 1), "squares chip"]


def routed(count):
    """The chip with a wire of its own paint along each row of cells."""
    side = math.isqrt(count)
    lines = chip(count)[:-1]
    lines += ["paint metal 0 %d %d %d" % (6 * k + 2, 6 * side, 6 * k + 4) for k in range(side)]
    return lines + ["squares chip"]


def stacked(count):
    """Four tiles over each other by half, all offending, in an array of their own."""
    side = math.isqrt(count // 4)
    lines = TILE + ["new four"] + ["place tile t%d 1 0 %d 0 1 %d" % (k, 3 * (k % 2), 3 * (k // 2)) for k in range(4)]
    return lines + ["new chip", "place tile t " + IDENTITY, "array t 0 %d 3 0 %d 3" % (2 * side - 1, 2 * side - 1), "squares chip"]


def crossed(count):
    """Wide cells, each over the nine on either side of it, across tall ones, with paint at their ends alone."""
    half = count // 2
    lines = ["new wide", "paint metal 0 0 2 2", "paint metal %d 8 %d 10" % (4 * half - 2, 4 * half)]
    lines += ["new tall", "paint metal 0 0 2 2", "paint metal 0 %d 2 %d" % (half + 8, half + 10), "new chip"]
    lines += ["place wide w " + IDENTITY, "array w 0 0 0 0 %d 1" % (half - 1)]
    lines += ["place tall t " + IDENTITY, "array t 0 %d 4 0 0 0" % (half - 1)]
    return lines + ["squares chip"]


SCRIPTS = {"chip": chip, "rows": rows, "apart": apart, "routed": routed, "stacked": stacked, "crossed": crossed}


def timed(program, script, folder):
    """Seconds and megabytes of a run."""
    text = "\n".join(["tech nm"] + script) + "\n"
    began = time.perf_counter()
    with subprocess.Popen([program], stdin=subprocess.PIPE, stdout=subprocess.PIPE, cwd=folder, text=True) as child:
        child.stdin.write(text)
        child.stdin.close()
        told = child.stdout.read()
        _, _, usage = os.wait4(child.pid, 0)
        child.returncode = 0
    seconds = time.perf_counter() - began
    refused = [line for line in told.split("\n") if line.startswith("line ")]
    assert not refused, refused[0]
    return seconds, usage.ru_maxrss / 1024


def main():
    options = argparse.ArgumentParser(description=__doc__.split("\n")[0])
    options.add_argument("--sizes", default="10000,40000,250000")
    options.add_argument("--program", default=str(PROGRAM))
    options.add_argument("--kinds", default=",".join(SCRIPTS))
    given = options.parse_args()
    with tempfile.TemporaryDirectory() as name:
        folder = Path(name)
        (folder / "nm.tech").write_text((TOP / "crates/run_tests/data/nm.tech").read_text())
        for kind in given.kinds.split(","):
            last = None
            for size in map(int, given.sizes.split(",")):
                script = SCRIPTS[kind](size)
                whole = min(timed(given.program, script, folder) for _ in range(3))
                seconds = max(whole[0] - min(timed(given.program, script[:-1], folder)[0] for _ in range(3)), 0.001)
                growth = "n^%.2f" % (math.log(seconds / last[1]) / math.log(size / last[0])) if last else ""
                print("%-8s %7d %8.2f s %6d MB  %s" % (kind, size, seconds, whole[1], growth), flush=True)
                last = (size, seconds)


if __name__ == "__main__":
    main()
