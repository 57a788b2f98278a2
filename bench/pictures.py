#!/usr/bin/env python3
"""Draws cells as SVG pictures: their layers, the nodes of a report, squares that offend or violate a rule, or the tiles of a plane.

    bench/pictures.py FILE CELL [--report REPORT] [--tiles PLANE] >CELL.svg
    bench/pictures.py --docs

FILE is the cell's file `CELL.mag`, beside which its technology and the cells below it lie, or a script, whose edits make the cell; of a script the
lines up to `--line` count, or all. The technology is that which the file or the script names.

Without a report the layers are drawn, with all that stands below the cell, its labels, and each transistor of its own paint with its gate. Over a
report of `nodes CELL` each node of the cell's own paint has a colour and its name. Over one of `squares CELL` or `drc CELL f` the squares that are told
are hatched. `--tiles` draws the corner-stitched tiles of a plane of the own paint, those of space within the frame too, each with its four stitches.

`--docs` writes the pictures of `docs/pictures`: of the files of `examples/`, and of the numbers in `docs/SPEED.md`.
"""
import argparse
import html
import math
import re
import sys
from pathlib import Path

from plain_circuits import Circuits
from plain_runs import Run
from random_cif import parts_of
from random_edits import strips

TOP = Path(__file__).resolve().parent.parent
WIDEST, MARGIN = 900, 2
COLOURS = {"poly": "#e04040", "polysilicon": "#e04040", "diff": "#40a040", "ndiffusion": "#40a040", "pdiffusion": "#c08030", "dfet": "#e0c020",
           "metal": "#4070e0", "metal1": "#4070e0", "metal2": "#9050c0", "nwell": "#c8c8c8", "pwell": "#e0d8c8", "psubstratepdiff": "#d0a060",
           "nsubstratendiff": "#80c080"}
PALETTE = ["#4070e0", "#e07030", "#40a060", "#a050c0", "#c0a020", "#30a0a0", "#d05080", "#707070", "#6060d0", "#80a030"]
WELLS = ("nwell", "pwell")


# ---- the picture
class Picture:
    """The lines of an SVG picture of a frame of squares; y goes up in a layout, and down in SVG."""

    def __init__(self, frame, scale):
        self.xlo, self.ylo, self.xhi, self.yhi = frame
        self.scale, self.lines = scale, []
        self.width, self.height = round((self.xhi - self.xlo) * scale), round((self.yhi - self.ylo) * scale)

    def x(self, x):
        return round((x - self.xlo) * self.scale, 2)

    def y(self, y):
        return round((self.yhi - y) * self.scale, 2)

    def box(self, strip, **style):
        xlo, ylo, xhi, yhi = strip
        self.lines.append('<rect x="%g" y="%g" width="%g" height="%g"%s/>' % (
            self.x(xlo), self.y(yhi), (xhi - xlo) * self.scale, (yhi - ylo) * self.scale, attributes(style)))

    def line(self, points, **style):
        path = " ".join("%g,%g" % (self.x(x), self.y(y)) for x, y in points)
        self.lines.append('<polyline points="%s" fill="none"%s/>' % (path, attributes(style)))

    def text(self, x, y, text, size=11, **style):
        style = {"font_size": size, "font_family": "sans-serif", "text_anchor": "middle", **style}
        self.lines.append('<text x="%g" y="%g"%s>%s</text>' % (self.x(x), self.y(y) + size / 3, attributes(style), html.escape(text)))

    def name(self, x, y, text, size=11):
        """A text that can be read over anything."""
        self.text(x, y, text, size, stroke="#ffffff", stroke_width=3, stroke_linejoin="round", paint_order="stroke", fill="#000000")

    def legend(self, names):
        """Colours with their names below the picture, in as many rows as they need."""
        x, y = 8, self.height + 10
        for name, colour in names:
            if x > 8 and x + 24 + 6.5 * len(name) > self.width:
                x, y = 8, y + 18
            self.lines.append('<rect x="%g" y="%g" width="12" height="12" fill="%s" stroke="#404040" stroke-width="0.5"/>' % (x, y - 6, colour))
            self.lines.append('<text x="%g" y="%g" font-size="11" font-family="sans-serif">%s</text>' % (x + 16, y + 4, html.escape(name)))
            x += 30 + 6.5 * len(name)
        self.height = y + 12

    def svg(self):
        size = 'width="%g" height="%g" viewBox="0 0 %g %g"' % (self.width, self.height, self.width, self.height)
        hatch = ('<defs><pattern id="hatch" width="6" height="6" patternUnits="userSpaceOnUse" patternTransform="rotate(45)">'
                 '<rect width="6" height="6" fill="#ffffff" fill-opacity="0.5"/><rect width="2.5" height="6" fill="#000000"/></pattern></defs>')
        head = '<svg xmlns="http://www.w3.org/2000/svg" %s>' % size
        return "\n".join([head, hatch, '<rect width="100%" height="100%" fill="#ffffff"/>'] + self.lines + ["</svg>"]) + "\n"


def attributes(style):
    return "".join(' %s="%s"' % (key.replace("_", "-"), value) for key, value in style.items())


def frame_of(places, margin=MARGIN):
    if not places:
        sys.exit("there is nothing to draw")
    xs, ys = [x for _, _, x in places], [y for _, y, _ in places]
    return min(xs) - margin, min(ys) - margin, max(xs) + 1 + margin, max(ys) + 1 + margin


def picture_of(places):
    frame = frame_of(places)
    return Picture(frame, min(24, WIDEST / (frame[2] - frame[0]), WIDEST / (frame[3] - frame[1])))


# ---- what is drawn
def library_of(path, cell, last=None):
    """The run that has read a cell's file and those below it, or that has done a script's edits up to a line."""
    if not path.is_file():
        sys.exit("there is no file %s" % path)
    files = {other.name: other.read_text().splitlines() for other in path.parent.iterdir() if other.suffix in (".tech", ".mag")}
    run = Run(files)
    if path.suffix == ".mag":
        names = [line.split()[1] for line in files[path.name] if line.startswith("tech ")]
        lines = ["tech " + tech_file(path.parent, names), "load " + cell]
    else:
        lines = path.read_text().splitlines()[:last]
        lines = [line for line in lines if line.split()[:1] and line.split()[0] not in READ_OVER]
    run.run(lines)
    if cell not in run.library.cells:
        sys.exit("there is no cell %s" % cell)
    return run


READ_OVER = ("nodes", "squares", "drc", "cif", "cifstat", "extract", "flat", "sim", "vectors", "simrun", "ext2sim", "grade", "save")


def tech_file(folder, names):
    """The file whose technology has the name, or the first one where the cell names none."""
    for path in sorted(folder.glob("*.tech")):
        if not names or ["tech", names[0]] == re.sub(r"(?m)^\s*#.*", "", path.read_text()).split()[:2]:
            return path.stem
    sys.exit("no file beside the cell has its technology")


def squares_with(layout, part):
    return {(x, y) for (_, y, x), parts in layout.items() if part in parts}


def colour_of(part, parts):
    return COLOURS.get(part, PALETTE[parts.index(part) % len(PALETTE)])


def longest(places):
    """The middle of the widest strip of some places."""
    xlo, ylo, xhi, yhi = max(strips({(x, y) for _, y, x in places}), key=lambda strip: (min(strip[2] - strip[0], 12) * min(strip[3] - strip[1], 3)))
    return (xlo + xhi) / 2, (ylo + yhi) / 2


def layers(run, cell, report=()):
    """A cell with all that stands below it, layer by layer."""
    circuits = Circuits(run.library, run.text)
    layout = circuits.layouts.whole(circuits.layouts.cell(cell))
    picture, parts = picture_of(layout), parts_of(run.library.tech)
    stands = [part for part in parts if squares_with(layout, part)]
    for part in sorted(stands, key=lambda part: part not in WELLS):
        for strip in strips(squares_with(layout, part)):
            if part.startswith("mark of "):
                contact(picture, strip)
            else:
                opacity = 0.5 if part in WELLS else 0.65
                picture.box(strip, fill=colour_of(part, parts), fill_opacity=opacity, stroke=colour_of(part, parts), stroke_width=0.5)
    transistors(picture, circuits, cell)
    for _, area, _, text in run.library.cells[cell].labels:
        picture.name((area[0] + area[2]) / 2, (area[1] + area[3]) / 2, text)
    hatched(picture, cell, report)
    picture.legend([(part, colour_of(part, parts)) for part in stands if not part.startswith("mark of ")])
    return picture.svg()


def contact(picture, strip):
    xlo, ylo, xhi, yhi = strip
    inset = 0.2 * min(xhi - xlo, yhi - ylo)
    picture.box((xlo + inset, ylo + inset, xhi - inset, yhi - inset), fill="#303030", fill_opacity=0.7)


def transistors(picture, circuits, cell):
    """Each transistor of the own paint, with its name's first letter and its gate."""
    for fet in circuits.fets(cell):
        for strip in strips({(x, y) for _, y, x in fet.places}):
            picture.box(strip, fill="none", stroke="#000000", stroke_width=2)
        x, y = longest(fet.places)
        picture.name(x, y, "%s %s" % (circuits.tech.fets[fet.kind][2][0], fet.gate.names[0]), 10)


def hatched(picture, cell, report):
    """The strips that a report tells of the cell."""
    for words in map(str.split, report):
        if words[:2] in (["offending", cell], ["violation", cell]):
            picture.box(tuple(map(int, words[-4:])), fill="url(#hatch)", stroke="#000000", stroke_width=1.5)


def nodes(run, cell, report):
    """The nodes of a cell's own paint that a report tells, each in a colour, with its name."""
    circuits = Circuits(run.library, run.text)
    own = circuits.own(cell)
    picture, found = picture_of(own), {}
    for node in circuits.nodes(cell):
        found[node.least[2], node.least[1], circuits.word(own[node.least])] = node
    names = []
    for number, told in enumerate(re.findall(r'^node "([^"]*)" 0 \S+ (\S+) (\S+) (\S+)', "\n".join(report), re.M)):
        name, x, y, word = told
        node = found.get((int(x), int(y), word))
        if node is None:
            sys.exit("the report has a node that the cell has not: %s" % name)
        colour = PALETTE[number % len(PALETTE)]
        for plane in range(len(run.library.tech.planes)):
            for strip in strips({(x, y) for on, y, x in node.places if on == plane}):
                picture.box(strip, fill=colour, fill_opacity=0.75, stroke=colour, stroke_width=0.5)
        names.append((longest(node.places), name))
    for (x, y), name in names:
        picture.name(x, y, name)
    return picture.svg()


# ---- corner-stitched tiles
def tiles_of(squares, frame):
    """The tiles of a plane within a frame: maximal horizontal strips of each type, and of space."""
    xlo, ylo, xhi, yhi = frame
    of_kind = {}
    for x in range(xlo, xhi):
        for y in range(ylo, yhi):
            of_kind.setdefault(squares.get((x, y)), set()).add((x, y))
    return [(strip, kind) for kind, found in of_kind.items() for strip in strips(found)]


def tiles(run, cell, plane):
    """The tiles of a plane: from each corner at the lower left a stitch goes down and one to the left, from the upper right one up and one to the right."""
    circuits, tech = Circuits(run.library, run.text), run.library.tech
    own = circuits.own(cell)
    squares = {(x, y): kind for (on, y, x), kind in own.items() if tech.planes[on] == plane}
    picture, parts = picture_of(own), [layer["name"] for layer in tech.layers]
    frame = frame_of(own)
    for strip, kind in tiles_of(squares, frame):
        fill = "none" if kind is None else colour_of(circuits.word(kind), parts)
        picture.box(strip, fill=fill, fill_opacity=0.6, stroke="#303030", stroke_width=1)
    for (xlo, ylo, xhi, yhi), kind in tiles_of(squares, frame):
        for x, y, way in (xlo + 0.3, ylo + 0.3, -1), (xhi - 0.3, yhi - 0.3, 1):
            stitch(picture, x, y, way, 0)
            stitch(picture, x, y, 0, way)
    return picture.svg()


def stitch(picture, x, y, dx, dy):
    """An arrow over the edge of a tile, where that is not the frame's."""
    ex, ey = x + 0.75 * dx, y + 0.75 * dy
    if picture.xlo < ex < picture.xhi and picture.ylo < ey < picture.yhi:
        picture.line([(x, y), (ex, ey)], stroke="#303030", stroke_width=0.8)
        picture.line([(ex - 0.2 * dx - 0.12 * dy, ey - 0.2 * dy - 0.12 * dx), (ex, ey), (ex - 0.2 * dx + 0.12 * dy, ey - 0.2 * dy + 0.12 * dx)],
                     stroke="#303030", stroke_width=0.8)


# ---- growth
def tables(text):
    """The tables of a page: the lines before each, its head, and its rows."""
    found, before = [], ""
    for block in text.split("\n\n"):
        rows = [[word.strip() for word in line.strip("|").split("|")] for line in block.splitlines() if line.startswith("|")]
        if len(rows) > 2:
            found.append((before.split("\n")[-1], rows[0], rows[2:]))
        before = block
    return found


def number(text):
    found = re.match(r"[0-9,.]+", text)
    return float(found[0].replace(",", "")) if found else None


def growth_curves():
    """What SPEED tells: curves of seconds over sizes, for loads beside Magic and for runs beside vvp."""
    loads, runs = {}, {}
    for before, head, rows in tables((TOP / "docs/SPEED.md").read_text()):
        if head[:1] == ["rectangles"] and "Magic s" in head and number(rows[-1][1]) > 0.1:
            title = before.rstrip(":").split(",")[0]
            for who, column in ("magex", 1), ("Magic", head.index("Magic s")):
                loads[title, who] = [(number(row[0]), number(row[column])) for row in rows]
        if "`simrun`" in head and "`vvp`" in head:
            for row in rows:
                title = row[0] or title
                for who, column in ("magex", head.index("`simrun`")), ("vvp", head.index("`vvp`")):
                    runs.setdefault((title, who), []).append((number(row[1]), number(row[column])))
    return loads, runs


class Chart(Picture):
    """A chart in which both axes go by powers of ten."""

    def __init__(self, left, width, height, xs, ys):
        super().__init__((0, 0, 900, 420), 1)
        self.left, self.wide, self.tall, self.xs, self.ys = left, width, height, xs, ys

    def at(self, x, y):
        along = [(math.log10(value) - math.log10(low)) / (math.log10(high) - math.log10(low)) for value, (low, high) in ((x, self.xs), (y, self.ys))]
        return self.left + along[0] * self.wide, 110 + along[1] * self.tall

    def axes(self, title, across):
        self.text(self.left + self.wide / 2, 400, title, 13)
        self.text(self.left + self.wide / 2, 76, across)
        for x in (10 ** k for k in range(8)):
            if self.xs[0] <= x <= self.xs[1]:
                self.line([self.at(x, self.ys[0]), self.at(x, self.ys[1])], stroke="#d0d0d0")
                self.text(self.at(x, self.ys[0])[0], 96, format(x, ","))
        for y in (0.01, 0.1, 1, 10, 100):
            if self.ys[0] <= y <= self.ys[1]:
                self.line([self.at(self.xs[0], y), self.at(self.xs[1], y)], stroke="#d0d0d0")
                self.text(self.left - 6, self.at(self.xs[0], y)[1], "%g s" % y, text_anchor="end")

    def curves(self, found, ours):
        titles = list(dict.fromkeys(title for title, _ in found))
        for (title, who), points in found.items():
            colour, dashes = PALETTE[titles.index(title)], "none" if who == ours else "5 4"
            places = [self.at(x, max(y, self.ys[0])) for x, y in points]
            self.line(places, stroke=colour, stroke_width=2, stroke_dasharray=dashes)
            for x, y in places:
                self.lines.append('<circle cx="%g" cy="%g" r="3" fill="%s"/>' % (self.x(x), self.y(y), colour if who == ours else "#ffffff"))
                self.lines[-1] = self.lines[-1].replace("/>", ' stroke="%s"/>' % colour)
        for place, title in enumerate(titles):
            y = 56 - 14 * place
            self.line([(self.left, y), (self.left + 22, y)], stroke=PALETTE[place], stroke_width=2)
            self.text(self.left + 28, y, title, text_anchor="start")


def growth():
    """Seconds over sizes: full lines are ours, broken ones Magic's and vvp's."""
    loads, runs = growth_curves()
    left = Chart(60, 360, 270, (8000, 400000), (0.01, 60))
    left.axes("loading a cell and finding its nodes: magex full, Magic broken", "rectangles")
    left.curves(loads, "magex")
    right = Chart(490, 380, 270, (40000, 300000), (0.05, 10))
    right.axes("switch-level runs: magex full, vvp broken", "switches")
    right.curves(runs, "magex")
    left.lines += right.lines
    return left.svg()


# ---- the pictures of the manual
def documents():
    examples = TOP / "examples"
    combs, latch = examples / "first/combs.mag", examples / "latch/latch.mag"
    crossing = examples / "crossing/squares.script"
    first_squares = next(number for number, line in enumerate(crossing.read_text().splitlines(), 1) if line.startswith("squares"))
    report = lambda name: (examples / name).read_text().splitlines()
    yield "first", nodes(library_of(combs, "combs"), "combs", report("first/nodes.report"))
    yield "tiles", tiles(library_of(combs, "combs"), "combs", "wire")
    yield "crossing", layers(library_of(crossing, "pair", first_squares), "pair", report("crossing/squares.report"))
    yield "latch", layers(library_of(latch, "latch"), "latch")
    yield "rules", layers(library_of(examples / "rules/pads.mag", "pads"), "pads", report("rules/rules.report"))
    yield "nand2", layers(library_of(examples / "adder/nand2.mag", "nand2"), "nand2")
    yield "adder", layers(library_of(examples / "adder/adder4.mag", "adder4"), "adder4")
    yield "growth", growth()


def write_documents(is_check):
    """Writes the pictures of docs/pictures, or tells those that stand otherwise."""
    wrong = []
    for name, text in documents():
        path = TOP / "docs/pictures" / (name + ".svg")
        if not is_check:
            path.write_text(text)
        elif not path.exists() or path.read_text() != text:
            wrong.append(name)
    if wrong:
        sys.exit("not up to date: " + " ".join(wrong))


def main():
    options = argparse.ArgumentParser(description=__doc__, formatter_class=argparse.RawDescriptionHelpFormatter)
    options.add_argument("file", nargs="?", type=Path, help="the cell's file, or a script")
    options.add_argument("cell", nargs="?", help="the cell's name; without one that of the file")
    options.add_argument("--report", type=Path, help="a report of `nodes`, `squares` or `drc`")
    options.add_argument("--line", type=int, help="the last line of the script that counts")
    options.add_argument("--tiles", metavar="PLANE", help="draw the tiles of this plane")
    options.add_argument("--docs", action="store_true", help="write the pictures of docs/pictures")
    options.add_argument("--check", action="store_true", help="with --docs: write nothing, and end with status 1 where one is not up to date")
    chosen = options.parse_args()
    if chosen.docs:
        write_documents(chosen.check)
        return
    if chosen.file is None:
        options.error("there is no file to draw")
    cell = chosen.cell or chosen.file.stem
    run = library_of(chosen.file, cell, chosen.line)
    report = chosen.report.read_text().splitlines() if chosen.report else []
    if chosen.tiles:
        print(tiles(run, cell, chosen.tiles), end="")
    elif any(line.startswith("node ") for line in report):
        print(nodes(run, cell, report), end="")
    else:
        print(layers(run, cell, report), end="")


if __name__ == "__main__":
    main()
