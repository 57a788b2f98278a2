#!/usr/bin/env python3
"""Writes random cells that use each other, with what `squares` replies of them, for the program run_tests.

    random_squares.py [SEED] >crates/run_tests/data/random_squares.cases

Each cell is painted square by square, all that stands at and below a cell is listed as it stands, and every place of the flat layout is
looked at with its four neighbours. Nothing of this comes from the program.
"""
import itertools
import random
import sys

from random_cases import answer, any_technology, beside, painted_places, written_cases
from random_edits import is_within, strips

ORIENTS = [(1, 0, 0, 1), (0, -1, 1, 0), (-1, 0, 0, -1), (0, 1, -1, 0), (1, 0, 0, -1), (-1, 0, 0, 1), (0, 1, 1, 0), (0, -1, -1, 0)]
SPACE = frozenset()


class Cell:
    """A cell: its name, the rectangles that are painted, and its uses."""

    def __init__(self, name):
        self.name, self.drawn, self.uses = name, [], []


class Use:
    """A use of a child: its id, where it stands, and its grid."""

    def __init__(self, child, name, orient, shift, grid):
        self.child, self.name, self.orient, self.shift, self.grid = child, name, orient, shift, grid

    def steps(self):
        """How far each element is displaced, in the child's coordinates."""
        if self.grid is None:
            return [(0, 0)]
        columns, xsep, rows, ysep = self.grid
        return [(n * xsep, m * ysep) for m in range(rows) for n in range(columns)]

    def place(self, step, place):
        """Where a place of the child goes, by the centre of its square."""
        plane, y, x = place
        a, b, d, e = self.orient
        x2, y2 = 2 * (x + step[0]) + 1, 2 * (y + step[1]) + 1
        return plane, (d * x2 + e * y2 + 2 * self.shift[1] - 1) // 2, (a * x2 + b * y2 + 2 * self.shift[0] - 1) // 2


class Flat:
    """The flat layouts of cells: a set of tile parts at each place."""

    def __init__(self, tech):
        self.tech = tech
        self.kind_of = {(plane, tech.type_set(t)): t for t, (plane, _) in enumerate(tech.types)}
        self.fets = {kind: terminals for kind, terminals, _ in tech.fets}

    def own(self, cell):
        return {place: self.tech.type_set(t) for place, t in painted_places(self.tech, cell.drawn).items()}

    def parts(self, cell):
        found = [self.own(cell)]
        for use in cell.uses:
            below = self.whole(use.child)
            found += [{use.place(step, place): parts for place, parts in below.items()} for step in use.steps()]
        return found

    def whole(self, cell):
        return joined(self.parts(cell))

    def kind(self, plane, parts):
        """The number of the type, -1 for space, and None where there is none."""
        return -1 if parts == SPACE else self.kind_of.get((plane, parts))

    def role(self, fet, kind):
        if kind == fet:
            return "channel"
        return "terminal" if kind in self.fets[fet] else "other"

    def offends(self, parts, flat, place):
        """Whether a place offends, each cell below being clean."""
        plane = place[0]
        kind = self.kind(plane, flat.get(place, SPACE))
        kinds = [self.kind(plane, part.get(place, SPACE)) for part in parts]
        if kind is None:
            return True
        if any(own != -1 and not is_within(self.tech, own, kind) for own in kinds):
            return True
        if any(own in self.fets and own != kind for own in kinds):
            return True
        if kind not in self.fets:
            return False
        owners = [part for part, own in zip(parts, kinds) if own == kind]
        if len(owners) != 1:
            return True
        for other, part in itertools.product(beside(place), owners):
            own = self.role(kind, self.kind(plane, part.get(other, SPACE)))
            if own != self.role(kind, self.kind(plane, flat.get(other, SPACE))):
                return True
        return False

    def offending(self, cell):
        """The strips of the squares that offend: a plane and a rectangle each."""
        parts = self.parts(cell)
        flat = joined(parts)
        found = {place for place in flat if self.offends(parts, flat, place)}
        for plane in range(len(self.tech.planes)):
            for strip in strips({(x, y) for on, y, x in found if on == plane}):
                yield self.tech.planes[plane], strip


def joined(parts):
    flat = {}
    for part in parts:
        for place, kinds in part.items():
            flat[place] = flat.get(place, SPACE) | kinds
    return flat


def below(cell):
    """The cells at and below a cell, children first, each once, in the order of uses."""
    order = []
    for use in cell.uses:
        order += [other for other in below(use.child) if other not in order]
    return order + [cell]


def reply(flat, cell):
    for other in below(cell):
        lines = ["offending %s %s %d %d %d %d" % ((other.name, plane) + strip) for plane, strip in flat.offending(other)]
        if lines:
            return lines
    return ["clean " + cell.name]


def draw(dice, tech, cell, most, spread):
    favoured = dice.sample(tech.layers, min(len(tech.layers), 3))
    for _ in range(dice.randint(0, most)):
        x, y = dice.randint(-spread, spread), dice.randint(-spread, spread)
        layer = dice.choice(favoured)
        cell.drawn.append((layer, x, y, x + dice.randint(1, 3), y + dice.randint(1, 3)))


def random_grid(dice):
    if dice.random() < 0.6:
        return None
    return dice.randint(1, 3), dice.randint(-5, 5), dice.randint(1, 3), dice.randint(-5, 5)


def random_library(dice, tech):
    cells = []
    for number in range(dice.randint(2, 4)):
        cell = Cell("c%d" % number)
        draw(dice, tech, cell, 3, 3)
        if cells:
            for count in range(dice.randint(1, 3)):
                shift = dice.randint(-6, 6), dice.randint(-6, 6)
                cell.uses.append(Use(dice.choice(cells), "u%d" % count, dice.choice(ORIENTS), shift, random_grid(dice)))
        cells.append(cell)
    return cells


def script_of(cells):
    for cell in cells:
        yield "new " + cell.name
        for layer, *bounds in cell.drawn:
            yield "paint %s %d %d %d %d" % ((layer["name"],) + tuple(bounds))
        for use in cell.uses:
            a, b, d, e = use.orient
            yield "place %s %s %d %d %d %d %d %d" % (use.child.name, use.name, a, b, use.shift[0], d, e, use.shift[1])
            if use.grid:
                columns, xsep, rows, ysep = use.grid
                yield "array %s 0 %d %d 0 %d %d" % (use.name, columns - 1, xsep, rows - 1, ysep)


def square_cases(dice, count):
    number = 0
    while number < count:
        text, tech = any_technology(dice)
        if not tech.fets and dice.random() < 0.8:
            continue
        cells = random_library(dice, tech)
        flat = Flat(tech)
        told = [reply(flat, cell) for cell in cells]
        if told[-1][0].startswith("clean") and dice.random() < 0.5:
            continue
        number += 1
        script = ["tech t"] + list(script_of(cells))
        report = [answer("t.tech", text)[0]] + ["ok"] * (len(script) - 1)
        script += ["squares " + cell.name for cell in cells]
        report += [line for lines in told for line in lines]
        status = int(any(line.startswith("offending") for line in report))
        yield "squares %d" % number, [("t.tech", text)], script, report, status


def main():
    dice = random.Random(int(sys.argv[1]) if len(sys.argv) > 1 else 18)
    print("# Random cases, written by bench/random_squares.py. Their answers were worked out there, apart from the program.")
    written_cases(square_cases(dice, 100))


if __name__ == "__main__":
    main()
