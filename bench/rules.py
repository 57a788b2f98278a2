#!/usr/bin/env python3
"""Times `drc` of the built program on layouts that are made from a number, and Magic's checker on the same cells where it is installed.

    bench/rules.py [--sizes 100,250,500] [--kinds chip,apart,..] [--program PATH] [--magic PATH]

A size is a number of elements in a row and in a column, or of wires each way. Three rules are asked together: one width, one spacing and one separation.
From each run the same one without its last line is taken off, the least of three each. It prints seconds, the most memory, and growth from one size to the
next (n to the power that is printed, n the number of elements or of crossings). Magic's technology is its `scmos` with these three rules in the place of its
own, without euclidean distances; its seconds are those of `drc catchup`, with all before it taken off.
"""
import argparse
import math
import re
import shutil
import tempfile
from pathlib import Path

from bench import PROGRAM, TOP, timed
import hierarchies
from hierarchies import Cell, array, write_cells

# The cells of this bench have metal too.
hierarchies.LAYERS["metal"] = ("metal", "metal1")
SCMOS = [Path("/usr/lib/x86_64-linux-gnu/magic/sys/scmos.tech"), Path("/usr/lib/magic/sys/scmos.tech"), Path("/usr/local/lib/magic/sys/scmos.tech")]


class Workload:
    """Cells, the last of them `top`, and three rules: a width, a spacing and a separation, each by a list of our names and one of Magic's."""

    def __init__(self, cells, width, spacing, separation):
        self.cells, self.width, self.spacing, self.separation = cells, width, spacing, separation

    def text(self):
        return "width %s %d\nspacing %s %d\nseparation %s %s %d\n" % (self.width + self.spacing + self.separation)


POLY, DIFF = "poly,efet", "diff,efet"


def chip(side):
    """Transistors that touch their neighbours, and nothing wrong."""
    return Workload(array(side), (POLY, 2), (DIFF, 2), ("poly", "dc/active", 1))


def near(side):
    """The same, where each corner between poly and diffusion is too near."""
    return Workload(array(side), (POLY, 2), (DIFF, 2), ("poly", "diff", 1))


def apart(side):
    """Transistors with room of 4 between them, all too thin, too tight and too near."""
    cells = {"tile": array(1)["tile"], "top": Cell(uses=[("tile", "t", 0, 0, (side, side, 10, 10))])}
    return Workload(cells, (POLY, 3), (DIFF, 5), ("poly", "diff", 4))


def crossed(side):
    """Wide strips of poly and tall wires of diffusion, which make a transistor at each crossing."""
    wide = [("poly", (0, 8 * k, 8 * side, 8 * k + 2)) for k in range(side)]
    tall = [("diff", (8 * k, 0, 8 * k + 2, 8 * side)) for k in range(side)]
    return Workload({"top": Cell(wide + tall)}, (POLY, 3), (DIFF, 7), ("poly", "diff", 1))


def over(side):
    """Wide strips over tall wires of another plane: each crossing is a square that is too near."""
    wide = [("poly", (0, 8 * k, 8 * side, 8 * k + 2)) for k in range(side)]
    tall = [("metal", (8 * k, 0, 8 * k + 2, 8 * side)) for k in range(side)]
    return Workload({"top": Cell(wide + tall)}, ("poly", 2), ("metal", 6), ("metal", "poly", 1))


def jagged(side):
    """A block with steps all round, and wires beside it."""
    steps = [("diff", (0, 2 * k, 4 * side + 3 * (k % 7), 2 * k + 2)) for k in range(side * side // 8)]
    wires = [("poly", (4 * side + 40 + 4 * k, 0, 4 * side + 42 + 4 * k, side * side // 4)) for k in range(side)]
    return Workload({"top": Cell(steps + wires)}, ("diff", 9), ("diff,poly", 3), ("poly", "diff", 30))


WORKLOADS = {"chip": chip, "near": near, "apart": apart, "crossed": crossed, "over": over, "jagged": jagged}
MAGIC = {"poly,efet": "poly,nfet", "diff,efet": "ndiff,nfet", "poly": "poly", "diff": "ndiff", "diff,poly": "ndiff,poly", "metal": "metal1", "dc/active": "ndc"}


def run_program(program, work, folder):
    """Seconds and megabytes."""
    (folder / "nm.tech").write_text((TOP / "crates/run_tests/data/nm.tech").read_text())
    (folder / "rules.drc").write_text(work.text())
    write_cells(work.cells, "nm", 0, folder)
    runs = {}
    for name, lines in ("whole", ["drc top rules"]), ("before", []):
        (folder / f"{name}.script").write_text("\n".join(["tech nm", "load top"] + lines) + "\n")
        runs[name] = [timed([program], folder / f"{name}.script", folder) for _ in range(3)]
        assert all(run.status < 2 for run in runs[name]), runs[name][0].status
    seconds = min(run.seconds for run in runs["whole"]) - min(run.seconds for run in runs["before"])
    return max(seconds, 0.001), max(run.megabytes for run in runs["whole"])


def magic_technology(work):
    """Magic's technology with these rules alone, or nothing where it has none."""
    found = next((path for path in SCMOS if path.exists()), None)
    lists = {MAGIC.get(text) for text in (work.width[0], work.spacing[0]) + work.separation[:2]}
    if not found or None in lists:
        return None
    width, spacing, separation = work.width, work.spacing, work.separation
    rules = ["drc", " width %s %d \"w\"" % (MAGIC[width[0]], width[1]),
             " spacing %s %s %d touching_ok \"s\"" % (MAGIC[spacing[0]], MAGIC[spacing[0]], spacing[1]),
             " spacing %s %s %d touching_illegal \"n\"" % (MAGIC[separation[0]], MAGIC[separation[1]], separation[2] + 1), "end"]
    return re.sub(r"(?ms)^drc$.*?^end$", "\n".join(rules), found.read_text(), count=1)


def run_magic(magic, work, folder):
    """Seconds and megabytes of the checks alone, or nothing where they can't be asked."""
    text = magic_technology(work)
    if text is None:
        return ""
    (folder / "scmos.tech").write_text(text)
    write_cells(work.cells, "scmos", 1, folder)
    begin = "drc off\ndrc euclidean off\nload top\nselect top cell\nexpand\n"
    runs = {}
    for name, lines in ("whole", "drc on\ndrc check\ndrc catchup\ndrc count total\n"), ("before", ""):
        (folder / f"{name}.tcl").write_text(begin + lines + "quit -noprompt\n")
        command = [magic, "-dnull", "-noconsole", "-rcfile", "/dev/null", "-T", str(folder / "scmos")]
        runs[name] = timed(command, folder / f"{name}.tcl", folder)
    return "%8.2f s %6.0f MB" % (max(runs["whole"].seconds - runs["before"].seconds, 0.0), runs["whole"].megabytes)


def main():
    options = argparse.ArgumentParser(description=__doc__.split("\n")[0])
    options.add_argument("--sizes", default="100,250,500")
    options.add_argument("--kinds", default=",".join(WORKLOADS))
    options.add_argument("--program", default=str(PROGRAM))
    options.add_argument("--magic", default=shutil.which("magic"), help="the path of Magic, or nothing to leave it out")
    given = options.parse_args()
    for kind in given.kinds.split(","):
        last = None
        for size in map(int, given.sizes.split(",")):
            work = WORKLOADS[kind](size)
            with tempfile.TemporaryDirectory() as name:
                seconds, megabytes = run_program(given.program, work, Path(name))
            other = ""
            if given.magic:
                with tempfile.TemporaryDirectory() as name:
                    other = run_magic(given.magic, work, Path(name))
            growth = "n^%.2f" % (math.log(seconds / last[1]) / math.log((size / last[0]) ** 2)) if last else ""
            print("%-8s %7d %8.2f s %6.0f MB  %-8s %s" % (kind, size, seconds, megabytes, growth, other), flush=True)
            last = (size, seconds)


if __name__ == "__main__":
    main()
