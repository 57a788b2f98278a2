#!/usr/bin/env python3
"""Times `cif` and `cifstat` of the built program, and reads its CIF texts with Magic where that is installed.

    bench/cif.py [--program PATH] [--magic PATH] [--only times|magic]

Times are those of the run with the command less those of the run without it, the least of three each. The text of a cell with arrays in all eight
orientations is read by Magic with a technology that has a type for each part, and flattened there; the areas of its types are compared with what
`cifstat` tells. Where they are not alike the status is 1.
"""
import argparse
import re
import shutil
import subprocess
import sys
import tempfile
from pathlib import Path

from bench import PROGRAM, TOP, timed
from hierarchies import array, write_cells
from random_squares import ORIENTS

MOST_BYTES = 16 << 20
PARTS = 6  # of the technology `nm`


# ---- texts for `cifstat`
def many_boxes():
    """As many boxes as 16 MiB hold, each two from the next."""
    lines, size, k = ["L P1;"], 0, 0
    while size < MOST_BYTES - 100:
        lines.append("B 2 2 %d %d;" % (4 * (k % 1000) + 1, 4 * (k // 1000) + 1))
        size += len(lines[-1]) + 1
        k += 1
    return "\n".join(lines + ["E", ""])


def in_tens(levels, box="B 2 2 1 1;"):
    """A box in ten symbols in ten symbols and so on, side by side."""
    lines = ["DS 1; L P1; %s DF;" % box]
    for level in range(2, levels + 1):
        calls = " ".join("C %d T %d 0;" % (level - 1, 4 * 10 ** (level - 2) * k) for k in range(10))
        lines.append("DS %d; %s DF;" % (level, calls))
    return lines


def many_instances():
    """1,000,000 instances, 900,000 of them of one box: nine times what six levels of ten stand for, and some of the box alone."""
    calls = ["C 6 T 0 %d;" % (4 * k) for k in range(9)] + ["C 1 T 0 %d;" % (4 * k) for k in range(9, 10)]
    return "\n".join(in_tens(6) + calls + ["E", ""])


def too_deep():
    lines = in_tens(1) + ["DS %d; C %d; DF;" % (k, k - 1) for k in range(2, 66)]
    return "\n".join(lines + ["C 65;", "E", ""])


def too_many_instances():
    return "\n".join(in_tens(40) + ["C 40;", "E", ""])


def too_many_boxes():
    return "\n".join(in_tens(6, "B 2 2 1 1; " * 5) + ["C 6;"] * 9 + ["E", ""])


TEXTS = [("16 MiB of boxes", many_boxes), ("1,000,000 instances", many_instances), ("a chain of 65 symbols", too_deep),
         ("10^39 instances", too_many_instances), ("4,500,000 boxes", too_many_boxes)]


# ---- times
def seconds_of(program, folder, before, last):
    """Seconds of the last line, the most memory of the whole run, and what it replied."""
    runs = {}
    for name, lines in ("whole", before + [last]), ("before", before):
        (folder / f"{name}.script").write_text("\n".join(lines) + "\n")
        runs[name] = [timed([program], folder / f"{name}.script", folder) for _ in range(3)]
    least = {name: min(run.seconds for run in found) for name, found in runs.items()}
    return least["whole"] - least["before"], max(run.megabytes for run in runs["whole"])


def show(name, found):
    print("| %s | %.2f s | %d |" % (name, found[0], found[1]))


def times(program, folder):
    print("| What | Time | MB |\n|---|---:|---:|")
    (folder / "nm.tech").write_text((TOP / "crates/run_tests/data/nm.tech").read_text())
    for side in 100, 250, 500:
        write_cells(array(side), "nm", 0, folder)
        show("`cif` of an array of %d by %d" % (side, side), seconds_of(program, folder, ["tech nm", "load top"], "cif top"))
        show("`cifstat` of its text", seconds_of(program, folder, [], "cifstat top"))
    for name, text in TEXTS:
        (folder / "text.cif").write_text(text())
        show("`cifstat` of %s" % name, seconds_of(program, folder, [], "cifstat text"))


# ---- what Magic reads
def cell_script():
    """A cell of all layers, in arrays of all orientations, and these in a turned array again."""
    lines = ["tech nm", "new leaf", "paint poly 0 2 9 4", "paint diff 2 0 4 9", "paint metal 5 5 11 7", "paint pc 6 2 8 4", "paint dc 2 6 4 8",
             "paint dfet 12 1 15 3", "new rows"]
    for k, (a, b, d, e) in enumerate(ORIENTS):
        lines += ["place leaf u%d %d %d %d %d %d %d" % (k, a, b, 60 * k, d, e, 7 * k), "array u%d 0 2 %d 0 1 %d" % (k, 14 + k, 9 - 3 * k)]
    return lines + ["new whole", "place rows r 0 -1 20 1 0 0", "array r 0 1 33 0 0 0", "place rows s 0 -1 -900 -1 0 5", "paint metal -5 -5 40 3", "cif whole",
                    "cifstat whole"]


def magic_technology():
    """A technology for Magic with a type for each part, which it reads from the layer of the part."""
    parts = range(1, PARTS + 1)
    planes = "\n".join("  plane%d" % k for k in parts)
    types = "\n".join("  plane%d part%d" % (k, k) for k in parts)
    styles = "\n".join("  part%d %d" % (k, k) for k in parts)
    layers = "\n".join("  layer part%d P%d\n  calma %d 0" % (k, k, k) for k in parts)
    written = "\n".join("  layer P%d part%d\n  calma %d 0" % (k, k, k) for k in parts)
    return f"""tech
  format 28
  parts
end
planes
{planes}
end
types
{types}
end
contact
end
styles
  styletype mos
{styles}
end
compose
end
connect
end
cifoutput
  style parts
  scalefactor 1
{written}
end
cifinput
  style parts
  scalefactor 1
{layers}
end
drc
end
extract
  style parts
  scale 1
  lambda 1
  step 100
  sidehalo 0
end
wiring
end
router
end
plowing
end
plot
end
"""


def magic_areas(magic, folder):
    """The areas of the types of the flattened cell, as Magic has read it."""
    (folder / "parts.tech").write_text(magic_technology())
    commands = "cif istyle parts\ncif read whole\nload whole\nflatten flattened\nload flattened\nsave flattened\nquit -noprompt\n"
    done = subprocess.run([magic, "-dnull", "-noconsole", "-T", str(folder / "parts")], input=commands, cwd=folder, capture_output=True, text=True)
    saved = folder / "flattened.mag"
    assert saved.exists(), done.stdout[-2000:] + done.stderr[-2000:]
    areas, layer, scale = {}, None, 1
    for line in saved.read_text().splitlines():
        words = line.split()
        if words[:1] == ["magscale"]:
            scale = int(words[2]) / int(words[1])
        if words[:1] == ["<<"]:
            layer = words[1]
        if words[:1] == ["rect"]:
            xlo, ylo, xhi, yhi = map(int, words[1:])
            areas[layer] = areas.get(layer, 0) + (xhi - xlo) * (yhi - ylo)
    return {layer: area / scale ** 2 for layer, area in areas.items()}


def compare(program, magic, folder):
    script = folder / "cell.script"
    (folder / "nm.tech").write_text((TOP / "crates/run_tests/data/nm.tech").read_text())
    script.write_text("\n".join(cell_script()) + "\n")
    report = subprocess.run([program], stdin=script.open(), cwd=folder, capture_output=True, text=True).stdout
    ours = {"part" + k: float(area) for k, area in re.findall(r"^layer P(\d+) area (\d+)$", report, re.M)}
    theirs = magic_areas(magic, folder)
    print("\n| Part | cifstat | Magic |\n|---|---:|---:|")
    for part in sorted(ours):
        print("| %s | %d | %d |" % (part, ours[part], theirs.get(part, 0)))
    alike = bool(ours) and all(theirs.get(part, 0) == area for part, area in ours.items()) and theirs.keys() <= ours.keys()
    print("\nalike" if alike else "\nnot alike")
    return alike


def main():
    options = argparse.ArgumentParser(description=__doc__, formatter_class=argparse.RawDescriptionHelpFormatter)
    options.add_argument("--program", default=str(PROGRAM))
    options.add_argument("--magic", default=shutil.which("magic"))
    options.add_argument("--only", choices=["times", "magic"])
    chosen = options.parse_args()
    with tempfile.TemporaryDirectory() as name:
        if chosen.only != "magic":
            times(str(Path(chosen.program).resolve()), Path(name))
        if chosen.magic and chosen.only != "times":
            if not compare(str(Path(chosen.program).resolve()), chosen.magic, Path(name)):
                sys.exit(1)


if __name__ == "__main__":
    main()
