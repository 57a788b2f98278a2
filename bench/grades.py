#!/usr/bin/env python3
"""Times `grade` on the circuits of bench/simulations.py, drawn as cells, beside one run of the same vectors by `vectors`.

    bench/grades.py [--seed 1] [--only NAME] [--program PATH]

A cell has a transistor of its own for each switch, whose gate and two ends have labels of their nodes; equal labels make one node.
For each circuit it prints its switches, how many faults there are and how many are detected, the processor seconds of one run of
the vectors and of the grading of all faults without those of extraction, how many runs the grading is worth, and peak megabytes.
"""
import argparse
import random
import sys
import tempfile
from pathlib import Path

import simulations
from bench import PROGRAM, timed

RUNS = 20
PITCH = 12

# Transistors of each kind stand between ends of diffusion, with a gate of poly above the channel.
TECHNOLOGY = """tech
 mos
end
planes
 active
end
types
 active poly
 active diff
 active nfet
 active pfet
 active dfet
end
connect
 poly,nfet,pfet,dfet poly,nfet,pfet,dfet
 diff diff
end
extract
 resist poly,nfet,pfet,dfet 100
 resist diff 100
 cap poly,nfet,pfet,dfet 10 1
 cap diff 10 1
 fet nfet diff nfet GND!
 fet pfet diff pfet Vdd!
 fet dfet diff dfet GND!
end
"""


# ---- circuits, of so many equal units, with their vectors
def adders(dice):
    """Two adders of 32 bits; at each of 20 phases both add other numbers."""
    unit = simulations.adders(1, dice)[0].unit
    switches = 2 * len(unit.switches)
    first, second = simulations.adders(switches, dice), simulations.adders(switches, dice)
    return first[0], first[1] + second[1]


def registers(dice):
    """Four shift registers of 64 stages, shifted 80 times."""
    unit = simulations.registers(1, dice)[0].unit
    return simulations.registers(4 * len(unit.switches), dice)


CIRCUITS = {"adders": adders, "registers": registers}


# ---- cells
def global_name(name):
    """A label that makes one node of all that have it."""
    return name if name.endswith("!") else name + "!"


def switches_of(circuit):
    """The switches of the units, with the names of their nodes."""
    for line in circuit.sim_text().split("\n"):
        words = line.split()
        if words and words[0] in "npd":
            yield words[0], [global_name(word) for word in words[1:4]]


def mag_text(circuit):
    """A cell with a transistor for each switch, side by side."""
    layers, labels = {}, []
    for place, (kind, (gate, source, drain)) in enumerate(switches_of(circuit)):
        left = place * PITCH
        parts = [("diff", left, 0, source), ("diff", left + 4, 0, drain), ("poly", left + 2, 2, gate)]
        layers.setdefault(f"{kind}fet", []).append((left + 2, 0))
        for layer, x, y, name in parts:
            layers.setdefault(layer, []).append((x, y))
            labels.append(f"rlabel {layer} {x} {y} {x + 2} {y + 2} 0 {name}")
    lines = ["magic", "tech mos", "timestamp 0"]
    for layer, corners in sorted(layers.items()):
        lines += [f"<< {layer} >>"] + [f"rect {x} {y} {x + 2} {y + 2}" for x, y in corners]
    return "\n".join(lines + ["<< labels >>"] + labels + ["<< end >>"]) + "\n"


def vector_text(vectors):
    """The lines of a vector file, with the names of the labels."""
    lines = []
    for verb, *words in vectors:
        if verb == "show":
            words = words[:1]
        lines.append(" ".join([verb] + [global_name(words[0])] + words[1:] if words else [verb]))
    return "\n".join(lines) + "\n"


# ---- runs
def run_script(options, folder, lines):
    script = folder / "run.script"
    script.write_text("tech mos\nload c\nextract c\n" + "\n".join(lines) + "\n")
    return timed([options.program], script, folder, folder / "report")


def coverage(folder):
    """What the last run told last, and what it refused."""
    lines = (folder / "report").read_text().rstrip("\n").split("\n")
    return lines[-1].split(), [line for line in lines if line.startswith("line ")]


def row(name, options):
    """Times one circuit, and prints a row for it. The answer is whether something was refused."""
    circuit, vectors = CIRCUITS[name](random.Random(options.seed))
    with tempfile.TemporaryDirectory() as place:
        folder = Path(place)
        (folder / "mos.tech").write_text(TECHNOLOGY)
        (folder / "c.mag").write_text(mag_text(circuit))
        (folder / "v.vec").write_text(vector_text(vectors))
        alone = run_script(options, folder, [])
        good = run_script(options, folder, ["vectors c v"] * RUNS)
        graded = run_script(options, folder, ["grade c v"])
        told, refused = coverage(folder)
    if graded.status != 0 or refused:
        print(f"{name:>10} ended with status {graded.status}: {refused[:1]}")
        return True
    one = max(good.processor - alone.processor, 1e-6) / RUNS
    whole = max(graded.processor - alone.processor, 0.0)
    print(f"{name:>10} {circuit.switches:>9} {told[2]:>7} {told[4]:>9} {one:>9.4f} {whole:>9.2f} {whole / one:>8.0f} {graded.megabytes:>6.0f}", flush=True)
    return False


def main():
    parser = argparse.ArgumentParser(description=__doc__.split("\n")[0])
    parser.add_argument("--seed", type=int, default=1)
    parser.add_argument("--only", choices=sorted(CIRCUITS))
    parser.add_argument("--program", default=str(PROGRAM))
    options = parser.parse_args()
    for name, make in CIRCUITS.items():
        print(f"{name}: {make.__doc__}")
    print(f"\n{'circuit':>10} {'switches':>9} {'faults':>7} {'detected':>9} {'a run, s':>9} {'all, s':>9} {'in runs':>8} {'MB':>6}")
    return int(any([row(name, options) for name in CIRCUITS if options.only in (None, name)]))


if __name__ == "__main__":
    sys.exit(main())
