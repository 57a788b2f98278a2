#!/usr/bin/env python3
"""Writes random cells and files of design rules, with what `drc` replies of them, for the program run_tests.

    random_rules.py [SEED] >crates/run_tests/data/random_rules.cases

Each cell is painted square by square, all that stands at and below it is laid over each other, and each rule is asked of each square by
looking at each box that the square lies in. Nothing of this comes from the program.
"""
import random
import re
import sys

from random_cases import Fault, answer, any_technology, written_cases
from random_edits import strips
from random_squares import Flat, random_library, script_of

NAME = re.compile(r"[A-Za-z0-9_-]{1,64}\Z")
NUMBER = re.compile(r"-?[0-9]+\Z")
KINDS = {"width": 3, "spacing": 3, "separation": 4}
MOST_RULES = 64


# ---- files of rules
def types_of_entry(tech, entry):
    """The types that an entry means."""
    name, _, plane = entry.partition("/")
    layer = tech.layer_of.get(name)
    if layer is None:
        raise Fault("G2")
    if "/" not in entry:
        return list(layer["images"].values())
    if plane not in tech.planes or tech.planes.index(plane) not in layer["images"]:
        raise Fault("G2")
    return [layer["images"][tech.planes.index(plane)]]


def types_of_list(tech, text):
    return {t for entry in text.split(",") for t in types_of_entry(tech, entry)}


def is_entry(entry):
    parts = entry.split("/")
    return len(parts) <= 2 and all(NAME.match(part) for part in parts)


def read_rule(tech, line):
    """The rule of a line: its kind, its sets of types and its distance. None where the line is read over."""
    words = re.split(r"[ \t]+", line.strip(" \t"))
    if line.startswith("#") or words == [""]:
        return None
    if KINDS.get(words[0]) != len(words) or not NUMBER.match(words[-1]):
        raise Fault("G1")
    if not all(is_entry(entry) for text in words[1:-1] for entry in text.split(",")):
        raise Fault("G1")
    lists = [types_of_list(tech, text) for text in words[1:-1]]
    if any(len({tech.types[t][0] for t in types}) > 1 for types in lists):
        raise Fault("G3")
    if not 1 <= int(words[-1]) <= 64:
        raise Fault("G4")
    if len(lists) == 2 and lists[0] & lists[1]:
        raise Fault("G5")
    return words[0], lists, int(words[-1])


def read_rules(tech, lines):
    """The rules of a file, or the number of its first faulty line and the fault."""
    rules = []
    for number, line in enumerate(lines, 1):
        try:
            rule = read_rule(tech, line)
            if rule and len(rules) == MOST_RULES:
                raise Fault("G6")
        except Fault as fault:
            return number, fault
        rules += [rule] if rule else []
    return rules, None


# ---- what violates a rule
def squares_of(flat, whole, types):
    """The squares whose flat type is one of these, and the plane that they stand on."""
    plane = flat.tech.types[next(iter(types))][0]
    return {(x, y) for (on, y, x), parts in whole.items() if on == plane and flat.kind(plane, parts) in types}, plane


def boxes_round(square, d):
    x, y = square
    for left in range(x - d + 1, x + 1):
        for bottom in range(y - d + 1, y + 1):
            yield [(left + i, bottom + j) for i in range(d) for j in range(d)]


def violates(kind, squares, others, d, square):
    x, y = square
    if kind == "width":
        return square in squares and not any(squares.issuperset(box) for box in boxes_round(square, d))
    if kind == "spacing":
        return square not in squares and not any(squares.isdisjoint(box) for box in boxes_round(square, d))
    return square in squares and any((x + i, y + j) in others for i in range(-d, d + 1) for j in range(-d, d + 1))


def violations(flat, cell, rules):
    """The lines of a cell's strips, rule by rule."""
    whole = flat.whole(cell)
    found = []
    for number, (kind, lists, d) in enumerate(rules, 1):
        squares, plane = squares_of(flat, whole, lists[0])
        others = squares_of(flat, whole, lists[1])[0] if kind == "separation" else set()
        asked = squares
        if kind == "spacing" and squares:
            xs, ys = [x for x, _ in squares], [y for _, y in squares]
            asked = {(x, y) for x in range(min(xs) - 1, max(xs) + 2) for y in range(min(ys) - 1, max(ys) + 2)}
        bad = {square for square in asked if violates(kind, squares, others, d, square)}
        found += ["violation %s %d %s %d %d %d %d" % ((cell.name, number, flat.tech.planes[plane]) + strip) for strip in strips(bad)]
    return found + ["drc %s: %d rules %d strips" % (cell.name, len(rules), len(found))]


# ---- random files
def random_entry(dice, tech):
    layer = dice.choice(tech.layers)
    if dice.random() < 0.05:
        return dice.choice(["nothing", "*" + layer["name"], layer["name"] + "/", layer["name"] + "/nowhere", ""])
    if len(layer["images"]) > 1 and dice.random() < 0.9 or dice.random() < 0.2:
        return "%s/%s" % (layer["name"], tech.planes[dice.choice(list(layer["images"]))])
    names = [name for name, other in tech.layer_of.items() if other is layer]
    return dice.choice(names)


def random_list(dice, tech):
    entries = [random_entry(dice, tech)]
    for _ in range(dice.choice([0, 0, 1, 2])):
        entry = random_entry(dice, tech)
        same = dice.random() < 0.05 or not (tech.layer_of.keys() >= {entry.split("/")[0], entries[0].split("/")[0]})
        if same or plane_of(tech, entry) == plane_of(tech, entries[0]):
            entries.append(entry)
    return ",".join(entries)


def plane_of(tech, entry):
    name, _, plane = entry.partition("/")
    return plane or tech.planes[tech.layer_of[name]["plane"]]


def random_line(dice, tech):
    if dice.random() < 0.08:
        return dice.choice(["# width", "", " \t", " # poly", "width", "spacing 1 2 3", "separation 1", "gap x 2", "width x"])
    kind = dice.choice(list(KINDS))
    lists = [random_list(dice, tech) for _ in range(KINDS[kind] - 2)]
    d = str(dice.choice([1, 1, 2, 2, 2, 3, 3, 4, 6]))
    if dice.random() < 0.03:
        d = dice.choice(["0", "-1", "65", "64", "007", "99999999999999999999", "2x"])
    return " ".join([kind] + lists + [d])


def rule_cases(dice, count):
    number = 0
    while number < count:
        text, tech = any_technology(dice)
        if not tech.layers:
            continue
        lines = [random_line(dice, tech) for _ in range(dice.randint(1, 5))]
        rules, fault = read_rules(tech, lines)
        if fault and dice.random() < 0.7:
            continue
        number += 1
        cells = random_library(dice, tech)
        flat = Flat(tech)
        script = ["tech t"] + list(script_of(cells))
        report = [answer("t.tech", text)[0]] + ["ok"] * (len(script) - 1)
        for cell in cells:
            script.append("drc %s r" % cell.name)
            report += ["line %d: E29 r.drc %d %s" % (len(script), rules, fault.code)] if fault else violations(flat, cell, rules)
        told = any(line.startswith(("line", "violation")) for line in report)
        yield "rules %d" % number, [("t.tech", text), ("r.drc", "".join(line + "\n" for line in lines))], script, report, int(told)


def main():
    dice = random.Random(int(sys.argv[1]) if len(sys.argv) > 1 else 42)
    print("# Random cases, written by bench/random_rules.py. Their answers were worked out there, apart from the program.")
    written_cases(rule_cases(dice, 80))


if __name__ == "__main__":
    main()
