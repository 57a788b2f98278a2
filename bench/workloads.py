"""Layouts from a number and a seed: the same number and seed give the same files.

A workload is a list of (layer, (xbot, ybot, xtop, ytop)). Layers are numbered from 0; each program under test has its own names
for them, so that the same rectangles are read by all.
"""
import math
import random


def grid(count, seed):
    """Squares of 4 by 4, each 6 from the next, row by row."""
    side = math.isqrt(count)
    return [(0, (6 * x, 6 * y, 6 * x + 4, 6 * y + 4)) for y in range(side) for x in range(side)]


def shuffled(count, seed):
    """The grid in a random order."""
    rects = grid(count, seed)
    random.Random(seed).shuffle(rects)
    return rects


def overlapping(count, seed):
    """Rectangles of 2 to 20 on four layers, anywhere in a square of as many units as make them overlap often."""
    source = random.Random(seed)
    side = 8 * math.isqrt(count)
    rects = []
    for _ in range(count):
        x, y = source.randrange(side), source.randrange(side)
        rects.append((source.randrange(4), (x, y, x + source.randint(2, 20), y + source.randint(2, 20))))
    return rects


def wires(count, seed):
    """As many wires as asked for, each 200,000 long and 2 high, with as much between them."""
    return [(0, (0, 4 * k, 200_000, 4 * k + 2)) for k in range(count)]


def comb(count, seed):
    """A spine with teeth on both its sides, so many less one: one node."""
    teeth = [(0, (4 * (k // 2), 2 if k % 2 else -40, 4 * (k // 2) + 2, 42 if k % 2 else 0)) for k in range(count - 1)]
    return [(0, (0, 0, 2 * count, 2))] + teeth


def mag_text(rects, tech, layers, labels=0):
    """A mag file of these rectangles, in their order: a new group where the layer changes. The first of them, so many, have a label each."""
    lines, group = ["magic", f"tech {tech}", "timestamp 1"], None
    for layer, rect in sorted(rects, key=lambda entry: entry[0]):
        if layer != group:
            lines.append(f"<< {layers[layer]} >>")
            group = layer
        lines.append("rect %d %d %d %d" % rect)
    if labels:
        lines.append("<< labels >>")
    lines += ["rlabel %s %d %d %d %d 0 n%d" % ((layers[layer],) + rect + (k,)) for k, (layer, rect) in enumerate(rects[:labels])]
    lines.append("<< end >>")
    return "\n".join(lines) + "\n"
