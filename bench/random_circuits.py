#!/usr/bin/env python3
"""Writes random cells that use each other, with the circuit, flat and sim files that are stored of them, for the program run_tests.

    random_circuits.py [SEED] >crates/run_tests/data/random_circuits.cases

The cells are those of `random_squares.py`, with labels; the clean ones are extracted, edited and extracted again, and random vectors are run on one of
them and graded. What is reported and stored is worked out by `plain_runs.py`, square by square. Nothing of this comes from the program.
"""
import random
import sys

from plain_runs import Run, Strengths
from random_cases import any_technology, written_cases
from random_squares import random_library, script_of
from random_vectors import random_vectors

TEXTS = ["a", "b", "Vdd!", "GND!", "in", "out", "a#", "x/y", "c!", "lo ng"]


def labelled(dice, tech, lines):
    """The lines of edits, with labels of the cell before each next one."""
    for number, line in enumerate(lines):
        if number and line.startswith("new ") or number == len(lines) - 1:
            for _ in range(dice.choice([0, 1, 1, 2, 3])):
                layer = dice.choice(["space"] + [layer["name"] for layer in tech.layers] * 3)
                x, y = dice.randint(-4, 4), dice.randint(-4, 4)
                area = (x, y, x + dice.choice([0, 0, 1, 2]), y + dice.choice([0, 0, 1, 2]))
                yield "label %s %d %d %d %d %d %s" % ((layer,) + area + (dice.randint(0, 8), dice.choice(TEXTS)))
        yield line


def edited(dice, tech, cells):
    """An edit of some cell."""
    cell = dice.choice(cells)
    layer = dice.choice(tech.layers)["name"]
    x, y = dice.randint(-3, 3), dice.randint(-3, 3)
    verb = dice.choice(["paint", "erase"])
    return ["edit " + cell.name, "%s %s %d %d %d %d" % (verb, layer, x, y, x + dice.randint(1, 2), y + dice.randint(1, 3))]


def asked(dice, cells):
    return ["%s %s" % (dice.choice(["extract", "flat", "sim", "sim"]), cell.name) for cell in dice.sample(cells, dice.randint(1, len(cells)))]


def vectors_of(dice, run, cell):
    """Random vectors for the circuit of a cell."""
    return random_vectors(dice, Strengths(run.at().sim_lines(cell.name)[1:]))


def answered(files, script):
    """What a run reports and stores, or None where some cell that is to be extracted is not clean."""
    run = Run(files)
    try:
        return run, run.run(script)
    except AssertionError:
        return run, None


def circuit_cases(dice, count):
    number = 0
    while number < count:
        text, tech = any_technology(dice)
        if not tech.fets and dice.random() < 0.7:
            continue
        cells = random_library(dice, tech)
        script = ["tech t"] + list(labelled(dice, tech, list(script_of(cells)))) + asked(dice, cells) + edited(dice, tech, cells) + asked(dice, cells)
        files = {"t.tech": text.splitlines()}
        run, found = answered(files, script + ["squares " + cells[-1].name])
        if found is None or not found[0][-1].startswith("clean"):
            continue
        if not any(line.startswith("merge") for _, lines in found[1] for line in lines) and dice.random() < 0.8:
            continue
        number += 1
        files["v.vec"] = vectors_of(dice, run, cells[-1])
        script += ["vectors %s v" % cells[-1].name, "grade %s v" % cells[-1].name]
        report, stored, status = answered(files, script)[1]
        given = [(name, "".join(line + "\n" for line in lines)) for name, lines in files.items()]
        yield "circuits %d" % number, given, script, report, status, stored


def main():
    dice = random.Random(int(sys.argv[1]) if len(sys.argv) > 1 else 44)
    print("# Random cases, written by bench/random_circuits.py. Their answers were worked out there, apart from the program.")
    written_cases(circuit_cases(dice, 100))


if __name__ == "__main__":
    main()
