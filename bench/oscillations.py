#!/usr/bin/env python3
"""Times the phases of `simrun` that do not settle, on circuits that are made from a number.

    bench/oscillations.py [--only NAME] [--program PATH] [--before PATH] [--times 3] [--instructions]

Each circuit is run once up to its last phase, and once with it; the difference is what that phase takes, its steps and its rounds. It
prints the least of some times of both, the difference, and how many of the shown states are not what they should be. With another
program, one from before, it prints the difference of that one too, and by what part ours is above it. A program from before shows
other states, which are not looked at. With --instructions it counts under valgrind what the processor is told, in millions, which a
busy machine doesn't change; each run is then made once, and takes some 50 times as long.
"""
import argparse
import re
import subprocess
import sys
import tempfile
from pathlib import Path

from bench import PROGRAM, timed

HEADER = "| units: 1 tech: bench format: MIT"


def inverter(gate, out):
    return [f"e {gate} GND! {out} 2 2 0 0", f"d {out} Vdd! {out} 2 2 0 0"]


def ring(names):
    return [line for gate, out in zip(names, names[1:] + names[:1]) for line in inverter(gate, out)]


def let_go(names):
    """Nodes that are set to 0 and settle so, and are then freed."""
    return [f"set {name} 0" for name in names] + ["phase"] + [f"free {name}" for name in names]


# ---- circuits: the lines of the sim file, those of the vectors before the last phase, the budget, and what is shown then
def beside():
    """A ring of three inverters beside 1,000,000 nodes without a switch: 200,000 steps, and a round of 3 nodes."""
    names = ["a", "b", "c"]
    return ring(names) + [f"C i{k:x} GND! 5" for k in range(1000000)], let_go(names), 200000, {name: "X" for name in names}


def rings():
    """50,000 rings of three: 2 steps, and a round of 150,000 nodes."""
    units = [[f"{name}{k}" for name in "abc"] for k in range(50000)]
    names = [name for unit in units for name in unit]
    return [line for unit in units for line in ring(unit)], let_go(names), 2, {name: "X" for name in names[::1000]}


def chain():
    """A chain of 200,000 inverters at rest, whose input turns over: 2 steps, and 199,998 rounds of a node each."""
    names = [f"n{k}" for k in range(200001)]
    lines = [line for gate, out in zip(names, names[1:]) for line in inverter(gate, out)]
    at_rest = [f"set {name} {k % 2}" for k, name in enumerate(names)] + ["phase"] + [f"free {name}" for name in names[1:]]
    return lines, at_rest + ["set n0 1"], 2, {"n1": "0", "n2": "1", "n3": "X", "n200000": "X"}


CIRCUITS = {"beside": beside, "rings": rings, "chain": chain}


# ---- runs
def counted(command, script, folder):
    """The instructions of one run, in millions."""
    tool = ["valgrind", "--tool=cachegrind", "--cache-sim=no", "--cachegrind-out-file=/dev/null"]
    with open(script, "rb") as source:
        done = subprocess.run(tool + command, stdin=source, stdout=subprocess.DEVNULL, stderr=subprocess.PIPE, cwd=folder, check=False)
    return int(re.search(rb"I\s+refs:\s+([\d,]+)", done.stderr).group(1).replace(b",", b"")) / 1e6


def least(program, budget, vectors, folder, options):
    """The least seconds of some runs of these vectors, or their millions of instructions."""
    (folder / "v.vec").write_text("\n".join(vectors) + "\n")
    (folder / "run.script").write_text("simrun c v\n")
    command = [program, f"--budget={budget}"]
    if options.instructions:
        return counted(command, folder / "run.script", folder)
    return min(timed(command, folder / "run.script", folder).seconds for _ in range(options.times))


def shown_by(program, budget, folder):
    """What the last run shows: names and values."""
    with open(folder / "run.script", "rb") as source:
        done = subprocess.run([program, f"--budget={budget}"], stdin=source, stdout=subprocess.PIPE, stderr=subprocess.DEVNULL, cwd=folder, check=False)
    return dict(line.split("=") for line in done.stdout.decode().split("\n") if "=" in line)


def measured(name, options):
    """Runs one circuit, and prints its row. The answer is how many of its states are not as they should be."""
    lines, vectors, budget, expected = CIRCUITS[name]()
    whole = vectors + ["phase", "show " + " ".join(expected)]
    print(f"\n{name}: {CIRCUITS[name].__doc__}")
    with tempfile.TemporaryDirectory() as made:
        folder = Path(made)
        (folder / "c.sim").write_text("\n".join([HEADER] + lines) + "\n")
        first = least(options.program, budget, vectors, folder, options)
        both = least(options.program, budget, whole, folder, options)
        shown = shown_by(options.program, budget, folder)
        wrong = sum(shown.get(node) != state for node, state in expected.items())
        unit = "million instructions" if options.instructions else "s"
        row = f"{first:.3f} {unit} without the phase, {both:.3f} with it: {both - first:.3f}; {wrong} of {len(expected)} states are wrong"
        if options.before:
            older = least(options.before, budget, whole, folder, options) - least(options.before, budget, vectors, folder, options)
            row += f"; before {older:.3f}, {(both - first) / older - 1:+.1%}"
        print(row, flush=True)
    return wrong


def main():
    parser = argparse.ArgumentParser(description=__doc__.split("\n")[0])
    parser.add_argument("--only", choices=sorted(CIRCUITS))
    parser.add_argument("--program", default=str(PROGRAM))
    parser.add_argument("--before", help="a program from before, whose times are printed too")
    parser.add_argument("--times", type=int, default=3)
    parser.add_argument("--instructions", action="store_true", help="count instructions under valgrind instead of seconds")
    options = parser.parse_args()
    return min(sum(measured(name, options) for name in CIRCUITS if options.only in (None, name)), 1)


if __name__ == "__main__":
    sys.exit(main())
