#!/usr/bin/env python3
"""Times circuit files of version 2: arrays by their grids, and rows of merges by ranges.

    bench/circuit_files.py [--side 500] [--uses 65535] [--ranges 300000] [--program PATH]

An array of so many transistors in a row and in a column is extracted, and its file is read back by `ext2sim`; a wire along 1,000 elements is
extracted. Then files are read that stand for more than they have: uses of 1,000,000 elements each, which are too many elements; uses of one id, the last
of which stands twice; ranges over as many uses, of which the last has an element that is not there; and the same over columns that stand a step higher each.
For each it prints the seconds, the most megabytes, and the size of the file.
"""
import argparse
import subprocess
import tempfile
from pathlib import Path

from bench import PROGRAM, TOP, timed
from hierarchies import Cell, array, write_cells

HEADER = "tech nm\nversion 2\nresistclasses\n"
WIRE = HEADER + 'node "m" 0 2000 0 0 metal\n'


def run(program, folder, script, status=0):
    (folder / "run.script").write_text(script)
    done = timed([program], folder / "run.script", folder)
    assert done.status == status, (done.status, script)
    return done


def tell(what, done, file):
    print("%-52s %7.2f s %6.0f MB %12d bytes" % (what, done.seconds, done.megabytes, file.stat().st_size), flush=True)


def in_folder(measured):
    with tempfile.TemporaryDirectory() as name:
        folder = Path(name)
        (folder / "nm.tech").write_text((TOP / "crates/run_tests/data/nm.tech").read_text())
        measured(folder)


def arrays(options):
    def measured(folder):
        write_cells(array(options.side), "nm", 0, folder)
        done = run(options.program, folder, "tech nm\nload top\nextract top\n")
        tell(f"extract: {options.side} by {options.side} transistors", done, folder / "top.ext")
        tell("ext2sim of it", run(options.program, folder, "ext2sim top\n"), folder / "top.ext")

    def wire(folder):
        write_cells({"wire": Cell([("poly", (0, 0, 4, 1))]), "top": Cell(uses=[("wire", "a", 0, 0, (1000, 1, 4, 1))])}, "nm", 0, folder)
        done = run(options.program, folder, "tech nm\nload top\nextract top\n")
        text = (folder / "top.ext").read_text().split("\n")
        merges = [line for line in text if line.startswith("merge ")]
        tell(f"extract: a wire along 1,000 elements, {len(merges)} merges", done, folder / "top.ext")

    in_folder(measured)
    in_folder(wire)


def refused(options, name, lines, refusal):
    """A file of these lines, which is refused so."""
    def measured(folder):
        (folder / "wire.ext").write_text(WIRE)
        file = folder / "top.ext"
        file.write_text(HEADER + "\n".join(lines) + "\n")
        tell(f"ext2sim: {name}", run(options.program, folder, "ext2sim top\n", 1), file)
        report = subprocess.run([options.program], input=b"ext2sim top\n", cwd=folder, capture_output=True, check=False).stdout
        assert report.decode() == f"line 1: {refusal}\n", report
    in_folder(measured)


def texts(options):
    """Files that stand for much, each refused for what its name says."""
    uses, ranges = options.uses, options.ranges
    last = uses - 1
    squares = [f"use wire u{k}[0:999:4][0:999:4] 1 0 0 0 1 0" for k in range(uses)]
    refused(options, f"{uses} uses of 1,000,000 elements", squares, "E18 too many Elements")
    single = [f"use wire a[{k},0] 1 0 {k} 0 1 0" for k in range(last)]
    refused(options, f"{uses} uses, the last twice", single + [f"use wire a[{last - 1},0] 1 0 0 0 1 0"], f"E23 top.ext {uses + 3} X7")
    rows = [f"merge a[0,0]/m a[{k % (uses // 2) + 1}:{last - 1},0]/m 0" for k in range(ranges)]
    refused(options, f"{ranges} ranges over them, and one too long", single + rows + [f"merge a[0,0]/m a[1:{last},0]/m 0"],
            f"E23 top.ext {last + ranges + 4} X8")
    columns = [f"use wire a[{k}:{k}:1][{k}:{k + 999999}:1] 1 0 0 0 1 0" for k in range(uses)]
    rows = [f"merge a[0,0]/m a[{k % (uses // 2)}:{last},{last}]/m 0" for k in range(ranges)]
    refused(options, f"{ranges} ranges over columns, each a step higher", columns + rows + ["merge a[0,0]/m a[0:1,0]/m 0"],
            f"E23 top.ext {uses + ranges + 4} X8")


def main():
    parser = argparse.ArgumentParser(description=__doc__, formatter_class=argparse.RawDescriptionHelpFormatter)
    parser.add_argument("--side", type=int, default=500)
    parser.add_argument("--uses", type=int, default=65535)
    parser.add_argument("--ranges", type=int, default=300000)
    parser.add_argument("--program", default=PROGRAM)
    options = parser.parse_args()
    arrays(options)
    texts(options)


if __name__ == "__main__":
    main()
