#!/usr/bin/env python3
"""Compares the circuit of `examples/adder` with that which Magic extracts from the same files.

    bench/magic_circuits.py [--program PATH] [--magic PATH]

Both make a sim file. Transistors that stand at one place are to have one kind, one length and one width, and nodes are to go to nodes, one to one, at
their gates and their ends. Magic's `drc` is to find nothing. Magic's circuit, cut down to the lines that are read here, is to give the same replies to the
vectors. Where something is not so the status is 1.
"""
import argparse
import shutil
import subprocess
import sys
import tempfile
from pathlib import Path

from bench import PROGRAM, TOP

ADDER = TOP / "examples/adder"
COMMANDS = "load adder4\nselect top cell\nexpand\nextract all\next2sim alias on\next2sim\ndrc catchup\ndrc count total\nquit -noprompt\n"


class Circuit:
    """The transistors of a sim file by their places, with the preferred names of their nodes."""

    def __init__(self, lines):
        self.above, self.fets = {}, {}
        for words in map(str.split, lines):
            if words[0] == "=" and self.top(words[1]) != self.top(words[2]):
                self.above[self.top(words[2])] = self.top(words[1])
        for words in map(str.split, lines):
            if words[0] in "nped" and len(words) >= 8:
                self.fets[words[6], words[7]] = (words[0], words[4:6], *map(self.top, words[1:4]))

    def top(self, name):
        while name in self.above:
            name = self.above[name]
        return name


def alike(ours, theirs):
    """Whether the nodes of two circuits go to each other, one to one, so that the transistors are the same."""
    there, back = {}, {}

    def go(pairs):
        fits = all(there.get(one, other) == other and back.get(other, one) == one for one, other in pairs)
        if fits:
            there.update(pairs)
            back.update((other, one) for one, other in pairs)
        return fits

    if ours.fets.keys() != theirs.fets.keys():
        return False
    pairs = [(ours.fets[place], theirs.fets[place]) for place in sorted(ours.fets)]
    if not all(one[:2] == other[:2] and go([(one[2], other[2])]) for one, other in pairs):
        return False
    # Which end is the source is not said: the ends go as they fit, gates and rails being known.
    return all(go([(one[3], other[3]), (one[4], other[4])]) or go([(one[3], other[4]), (one[4], other[3])]) for one, other in pairs)


def by_magic(magic, folder):
    """Magic's sim file, and how many errors its design rules find."""
    for path in ADDER.glob("*.mag"):
        shutil.copy(path, folder)
    said = subprocess.run([magic, "-dnull", "-noconsole", "-T", "scmos"], input=COMMANDS, cwd=folder, capture_output=True, text=True).stdout
    errors = [line.split()[-1] for line in said.splitlines() if line.startswith("Total DRC errors found")]
    return (folder / "adder4.sim").read_text().splitlines(), errors


def by_program(program, folder, script):
    for path in ADDER.iterdir():
        if path.suffix in (".mag", ".tech", ".vec", ".drc"):
            shutil.copy(path, folder)
    return subprocess.run([program], input=script, cwd=folder, capture_output=True, text=True).stdout


def cut_down(lines):
    """What a sim file of Magic's says of transistors and names, in the form that is read here."""
    kept = ["| units: 1 tech: %s format: MIT" % lines[0].split()[4]]
    kept += [" ".join(line.split()[:8]) for line in lines if line.split()[0] in "nped"]
    return "\n".join(kept + [line for line in lines if line.startswith("= ")]) + "\n"


def main():
    options = argparse.ArgumentParser(description=__doc__, formatter_class=argparse.RawDescriptionHelpFormatter)
    options.add_argument("--program", default=str(PROGRAM))
    options.add_argument("--magic", default=shutil.which("magic"))
    chosen = options.parse_args()
    program = str(Path(chosen.program).resolve())
    with tempfile.TemporaryDirectory() as name, tempfile.TemporaryDirectory() as other:
        here, there = Path(name), Path(other)
        ours = by_program(program, here, "tech cmos\nload adder4\nsim adder4\nvectors adder4 add\n")
        theirs, errors = by_magic(chosen.magic, there)
        (here / "cut.sim").write_text(cut_down(theirs))
        replies = by_program(program, here, "simrun cut add\n")
        told = {"the circuits are alike": alike(Circuit((here / "adder4.sim").read_text().splitlines()), Circuit(theirs)),
                "Magic's design rules find nothing": errors == ["0"],
                "Magic's circuit gives the same replies": replies.startswith("phase") and ours.endswith(replies)}
    for words, is_so in told.items():
        print("%s: %s" % (words, "yes" if is_so else "no"))
    sys.exit(not all(told.values()))


if __name__ == "__main__":
    main()
