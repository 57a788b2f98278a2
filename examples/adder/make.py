#!/usr/bin/env python3
"""Draws the adder: writes nand2.mag, fa.mag, adder4.mag and the vectors add.vec into its own folder.

    examples/adder/make.py

A gate of four transistors, `nand2`, stands nine times in a row and makes a full adder, `fa`. The nets of a row are wired in a channel above it: a net has
a part of a track of metal1, poly goes up to it from the inputs, and metal2 from the outputs. Four rows one upon the other are the adder, `adder4`; the
carry, and the rails, go from row to row where they touch.
"""
from pathlib import Path

HERE = Path(__file__).resolve().parent
WIDTH, TALL = 24, 46                     # of a gate, without the channel
TRACK, PITCH, GAP = 50, 8, 4             # the lowest track, from track to track, and the least gap between two nets on one
LEFT, RIGHT, CARRY = -28, 232, 218       # the ends of a row, and where the carry goes up, which is 4 wide
BITS = 4

# The gates from left to right: their inputs and their output.
GATES = [("a", "b", "x1"), ("a", "x1", "x2"), ("b", "x1", "x3"), ("x2", "x3", "p"), ("p", "ci", "y1"), ("p", "y1", "y2"), ("ci", "y1", "y3"),
         ("y2", "y3", "s"), ("x1", "y1", "co")]
# Vectors that show every gate all of its inputs: all eight for a bit whose carry goes on as it comes, and the two others bit by bit in turn.
VECTORS = [(0, 0, 0), (15, 15, 1), (0, 15, 0), (15, 0, 0), (0, 15, 1), (15, 0, 1), (5, 5, 0), (10, 10, 1), (6, 7, 1), (9, 3, 0)]


class Cell:
    """A cell that is drawn: rectangles by layer, uses and labels."""

    def __init__(self):
        self.layers, self.uses, self.labels = {}, [], []

    def box(self, layer, xlo, ylo, xhi, yhi):
        self.layers.setdefault(layer, []).append((xlo, ylo, xhi, yhi))

    def use(self, child, name, x, y, grid=None, hull=(0, 0, 0, 0)):
        self.uses.append("use %s %s" % (child, name))
        self.uses += ["array %d %d %d %d %d %d" % grid] if grid else []
        self.uses += ["timestamp 0", "transform 1 0 %d 0 1 %d" % (x, y), "box %d %d %d %d" % hull]

    def label(self, layer, xlo, ylo, xhi, yhi, text):
        self.labels.append("rlabel %s %d %d %d %d 0 %s" % (layer, xlo, ylo, xhi, yhi, text))

    def write(self, name):
        lines = ["magic", "tech scmos", "timestamp 0"]
        for layer, boxes in self.layers.items():
            lines += ["<< %s >>" % layer] + ["rect %d %d %d %d" % box for box in boxes]
        lines += self.uses + ["<< labels >>"] * bool(self.labels) + self.labels + ["<< end >>"]
        (HERE / (name + ".mag")).write_text("\n".join(lines) + "\n")


def nand2():
    """Two transistors to ground behind each other, and two to power side by side."""
    cell = Cell()
    cell.box("nwell", 0, 22, WIDTH, TALL)
    cell.box("ndiffusion", 6, 8, 18, 14)
    cell.box("pdiffusion", 6, 28, 18, 36)
    for x in 7, 15:
        cell.box("polysilicon", x, 6, x + 2, TALL)
    for x in 2, 18:
        cell.box("ndcontact", x, 8, x + 4, 14)
    for x in 2, 10, 18:
        cell.box("pdcontact", x, 28, x + 4, 36)
    cell.box("psubstratepcontact", 10, 0, 14, 4)
    cell.box("nsubstratencontact", 10, 40, 14, 44)
    cell.box("metal1", 0, 0, WIDTH, 4)
    cell.box("metal1", 0, 40, WIDTH, 44)
    cell.box("metal1", 2, 4, 6, 8)
    for x in 2, 18:
        cell.box("metal1", x, 36, x + 4, 40)
    cell.box("metal1", 10, 22, 14, 28)
    cell.box("metal1", 14, 18, 22, 22)
    cell.box("metal1", 18, 14, 22, 18)
    cell.box("m2contact", 10, 18, 14, 22)
    cell.box("metal2", 10, 22, 14, TALL)
    cell.label("polysilicon", 7, 6, 9, 8, "a")
    cell.label("polysilicon", 15, 6, 17, 8, "b")
    cell.label("metal1", 18, 18, 22, 22, "y")
    cell.label("metal1", 0, 0, 4, 4, "GND!")
    cell.label("metal1", 0, 40, 4, 44, "Vdd!")
    return cell


def pins():
    """For each net the columns at which it comes up: where, and whether it is an output."""
    found = {}
    for number, (one, other, out) in enumerate(GATES):
        for net, at, is_output in (one, 6, False), (other, 14, False), (out, 10, True):
            found.setdefault(net, []).append((WIDTH * number + at, is_output))
    return found


def tracks():
    """The track of each net with its ends: nets from left to right, each on the lowest track that is free, the carry out above the carry in."""
    ends = {}
    for net, columns in pins().items():
        xs = [x for x, _ in columns]
        low = LEFT if net in ("a", "b") else min(xs)
        high = RIGHT if net == "s" else CARRY + 4 if net in ("ci", "co") else max(xs) + 4
        ends[net] = low, high
    taken, found = [], {}
    for net, (low, high) in sorted(ends.items(), key=lambda item: item[1]):
        least = found["ci"][0] + 1 if net == "co" else 0
        track = next((t for t in range(least, len(taken)) if taken[t] + GAP <= low), len(taken))
        taken += [high] if track == len(taken) else []
        taken[track] = high
        found[net] = track, low, high
    return found, TRACK + PITCH * len(taken)


def full_adder():
    cell, (found, top) = Cell(), tracks()
    for number in range(len(GATES)):
        cell.use("nand2", "g%d" % number, WIDTH * number, 0, hull=(0, 0, WIDTH, TALL))
    end = WIDTH * len(GATES)
    cell.box("nwell", -4, 22, 0, TALL)
    cell.box("nwell", end, 22, end + 4, TALL)
    for rail, y, x in ("GND!", 0, -12), ("Vdd!", 40, -22):
        cell.box("metal1", x + 4, y, 0, y + 4)
        cell.box("m2contact", x, y, x + 4, y + 4)
        cell.box("metal2", x, 0, x + 4, top)
        cell.label("metal2", x, 0, x + 4, top, rail)
    for net, (track, low, high) in found.items():
        y = TRACK + PITCH * track
        cell.box("metal1", low, y, high, y + 4)
        cell.label("metal1", low, y, high, y + 4, net)
        for x, is_output in pins()[net]:
            cell.box("m2contact" if is_output else "polycontact", x, y, x + 4, y + 4)
            cell.box("metal2" if is_output else "polysilicon", x if is_output else x + 1, TALL, x + 4 if is_output else x + 3, y)
    for net, ylo, yhi in ("ci", 0, TRACK + PITCH * found["ci"][0]), ("co", TRACK + PITCH * found["co"][0], top):
        y = yhi if net == "ci" else ylo
        cell.box("m2contact", CARRY, y, CARRY + 4, y + 4)
        cell.box("metal2", CARRY, ylo, CARRY + 4, yhi)
    return cell


def adder():
    cell, (found, top) = Cell(), tracks()
    cell.use("fa", "f", 0, 0, (0, 0, 0, 0, BITS - 1, top), (LEFT, 0, RIGHT, top))
    for bit in range(BITS):
        for net, low, high in ("a", LEFT - 12, LEFT), ("b", LEFT - 12, LEFT), ("s", RIGHT, RIGHT + 12):
            y = top * bit + TRACK + PITCH * found[net][0]
            cell.box("metal1", low, y, high, y + 4)
            cell.label("metal1", low, y, high, y + 4, "%s%d" % (net, bit))
    for net, y in ("ci", -12), ("co", BITS * top):
        cell.box("metal2", CARRY, y, CARRY + 4, y + 12)
        cell.label("metal2", CARRY, y, CARRY + 4, y + 12, net)
    return cell


def vectors():
    """For each vector the inputs that change, a phase, and what comes out."""
    lines, state = ["# a + b + ci, for vectors that show every gate all of its inputs."], {}
    for a, b, carry in VECTORS:
        bits = {"%s%d" % (name, bit): number >> bit & 1 for bit in range(BITS) for name, number in (("a", a), ("b", b))}
        bits["ci"] = carry
        total = a + b + carry
        lines.append("# %d + %d + %d = %d" % (a, b, carry, total))
        lines += ["set %s %d" % (net, bit) for net, bit in bits.items() if state.get(net) != bit]
        lines += ["phase", "show co s3 s2 s1 s0"]
        state = bits
    (HERE / "add.vec").write_text("\n".join(lines) + "\n")


def main():
    nand2().write("nand2")
    full_adder().write("fa")
    adder().write("adder4")
    vectors()


if __name__ == "__main__":
    main()
