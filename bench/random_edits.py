#!/usr/bin/env python3
"""Writes random scripts that edit, load and save cells, with their answers, for the program run_tests.

    random_edits.py >crates/run_tests/data/random_edits.cases

A library is kept here square by square: a cell is a set of parts for each square and plane, a list of labels and a list of uses, and
what stands at and below it is worked out anew for each question. Nothing of this comes from the program.
"""
import itertools
import os
import random

from random_cases import node_line, paint_column, beside, read_technology, written_cases

PAINT_EDGE, USE_EDGE, MOST_ELEMENTS, MOST_DEPTH = 67108858, 134217716, 1000000, 64
ORIENTATIONS = [(1, 0, 0, 1), (0, -1, 1, 0), (-1, 0, 0, -1), (0, 1, -1, 0), (-1, 0, 0, 1), (1, 0, 0, -1), (0, 1, 1, 0), (0, -1, -1, 0)]
GROUPS_READ_OVER = {"checkpaint", "error_p", "error_s", "error_ps", "properties"}


class Refused(Exception):
    """A line is refused with this text."""


def fits(*numbers, edge=PAINT_EDGE):
    return all(-edge <= number <= edge for number in numbers)


class Cell:
    def __init__(self):
        self.columns, self.labels, self.uses = {}, [], {}

    def copy(self):
        other = Cell()
        other.columns = {square: dict(column) for square, column in self.columns.items()}
        other.labels, other.uses = list(self.labels), dict(self.uses)
        return other


class Library:
    def __init__(self, tech):
        self.tech, self.cells, self.scale, self.current = tech, {}, None, None

    # ---- what stands at and below a cell
    def depth(self, name):
        return 1 + max([self.depth(child) for child, _, _ in self.cells[name].uses.values()], default=0)

    def elements(self, name):
        return 1 + sum(count(grid) * self.elements(child) for child, _, grid in self.cells[name].uses.values())

    def hull(self, name):
        cell = self.cells[name]
        corners = [(x, y, x + 1, y + 1) for (x, y), column in cell.columns.items() if any(column.values())]
        corners += [area for _, area, _, _ in cell.labels]
        for child, six, grid in cell.uses.values():
            hull = self.hull(child)
            if hull:
                corners += [image(six, moved(hull, step)) for step in end_steps(grid)]
        return around(corners)

    def below(self, name):
        found = {name}
        for child, _, _ in self.cells[name].uses.values():
            found |= self.below(child)
        return found

    def check(self):
        names = list(self.cells)
        if any(self.depth(name) > MOST_DEPTH for name in names):
            raise Refused("E18 too many Depth")
        if any(self.elements(name) > MOST_ELEMENTS for name in names):
            raise Refused("E18 too many Elements")
        if any(not fits(*(self.hull(name) or [])) for name in names):
            raise Refused("E12 out of range")

    # ---- edits: the changed cell is checked with all others, and put back where it is refused
    def changed(self, name, change):
        old = self.cells[name]
        self.cells[name] = old.copy()
        try:
            change(self.cells[name])
            self.check()
        except Refused:
            self.cells[name] = old
            raise

    def in_current(self):
        if self.current is None:
            raise Refused("E8 no cell -")
        return self.cells[self.current]

    def named(self, name):
        if name not in self.cells:
            raise Refused("E8 no cell " + name)

    def layer(self, word):
        if word not in self.tech.layer_of:
            raise Refused("E10 no layer " + word)
        return self.tech.layer_of[word]

    def new(self, name):
        if name in self.cells:
            raise Refused("E9 cell exists " + name)
        self.cells[name] = Cell()
        self.scale = self.scale or (1, 1)
        self.current = name

    def edit(self, name):
        self.named(name)
        self.current = name

    def draw(self, brush, word, area):
        self.in_current()
        layer = self.layer(word)
        if area[0] >= area[2] or area[1] >= area[3]:
            raise Refused("E11 empty rectangle")
        if not fits(*area):
            raise Refused("E12 out of range")
        self.changed(self.current, lambda cell: draw_on(self.tech, cell.columns, brush, layer, area))

    def place(self, child, name, six):
        cell = self.in_current()
        self.named(child)
        if name in cell.uses:
            raise Refused("E15 use exists " + name)
        if (six[0], six[1], six[3], six[4]) not in ORIENTATIONS:
            raise Refused("E13 not an orientation")
        if not fits(six[2], six[5], edge=USE_EDGE):
            raise Refused("E12 out of range")
        if self.current in self.below(child):
            raise Refused("E16 cycle " + child)
        self.changed(self.current, lambda cell: cell.uses.update({name: (child, tuple(six), None)}))

    def use(self, name):
        cell = self.in_current()
        if name not in cell.uses:
            raise Refused("E14 no use " + name)
        return cell.uses[name]

    def array(self, name, grid):
        child, six, _ = self.use(name)
        if not fits(grid[2], grid[5], edge=USE_EDGE):
            raise Refused("E12 out of range")
        if count(grid) > MOST_ELEMENTS:
            raise Refused("E18 too many Elements")
        self.changed(self.current, lambda cell: cell.uses.update({name: (child, six, tuple(grid))}))

    def move(self, name, dx, dy):
        child, (a, b, c, d, e, f), grid = self.use(name)
        if not fits(c + dx, f + dy, edge=USE_EDGE):
            raise Refused("E12 out of range")
        self.changed(self.current, lambda cell: cell.uses.update({name: (child, (a, b, c + dx, d, e, f + dy), grid)}))

    def delete(self, name):
        self.use(name)
        del self.cells[self.current].uses[name]

    def label(self, word, area, position, text):
        self.in_current()
        layer = None if word == "space" else self.layer(word)
        if area[0] > area[2] or area[1] > area[3]:
            raise Refused("E11 empty rectangle")
        if not fits(*area):
            raise Refused("E12 out of range")
        self.changed(self.current, lambda cell: cell.labels.append((layer, tuple(area), position, text)))

    def unlabel(self, text):
        cell = self.in_current()
        left = [label for label in cell.labels if label[3] != text]
        if len(left) == len(cell.labels):
            raise Refused("E17 no label " + text)
        cell.labels = left

    # ---- files
    def load(self, root, files):
        if root in self.cells:
            raise Refused("E9 cell exists " + root)
        read, scale = {}, self.scale
        todo = [root]
        while todo:
            name = todo.pop()
            if name in self.cells or name in read:
                continue
            if name + ".mag" not in files:
                raise Refused("E6 no file %s.mag" % name)
            read[name], said = read_file(self.tech, files[name + ".mag"])
            scale = scale or said[0]
            if said[0] != scale:
                raise Refused("E7 %s.mag %d M10" % (name, said[1]))
            todo += [child for child, _, _ in reversed(list(read[name].uses.values()))]
        whole = Library(self.tech)
        whole.cells = {**self.cells, **read}
        for name in read:
            if reaches(whole.cells, name, name):
                raise Refused("E16 cycle " + name)
        whole.check()
        self.cells, self.scale, self.current = whole.cells, scale, root
        return len(read)

    def save(self, name):
        cell = self.cells[name]
        lines = ["magic", "tech " + self.tech.name]
        lines += ["magscale %d %d" % self.scale] if self.scale != (1, 1) else []
        lines.append("timestamp 0")
        for layer in self.tech.layers:
            parts = self.tech.type_set(layer["images"][layer["plane"]])
            rects = strips({square for square, column in cell.columns.items() if column.get(layer["plane"]) == parts})
            if rects:
                lines.append("<< %s >>" % layer["name"])
                lines += ["rect %d %d %d %d" % rect for rect in rects]
        for name, (child, six, grid) in cell.uses.items():
            lines.append("use %s %s" % (child, name))
            lines += ["array %d %d %d %d %d %d" % grid] if grid else []
            lines += ["timestamp 0", "transform %d %d %d %d %d %d" % six, "box %d %d %d %d" % (self.hull(child) or (0, 0, 0, 0))]
        if cell.labels:
            lines.append("<< labels >>")
        for layer, area, position, text in cell.labels:
            word = layer["name"] if layer else "space"
            lines.append("rlabel %s %d %d %d %d %d %s" % ((word,) + area + (position, text)))
        return "\n".join(lines + ["<< end >>"]) + "\n"

    def nodes(self, name):
        return node_lines(self.tech, self.cells[name])


def count(grid):
    return 1 if grid is None else (abs(grid[1] - grid[0]) + 1) * (abs(grid[4] - grid[3]) + 1)


def end_steps(grid):
    """How far the elements at the corners of a grid are displaced."""
    if grid is None:
        return [(0, 0)]
    across, up = abs(grid[1] - grid[0]) * grid[2], abs(grid[4] - grid[3]) * grid[5]
    return itertools.product((0, across), (0, up))


def moved(area, step):
    return (area[0] + step[0], area[1] + step[1], area[2] + step[0], area[3] + step[1])


def image(six, area):
    a, b, c, d, e, f = six
    points = [(a * x + b * y + c, d * x + e * y + f) for x in area[::2] for y in area[1::2]]
    xs, ys = zip(*points)
    return (min(xs), min(ys), max(xs), max(ys))


def around(areas):
    if not areas:
        return None
    xlo, ylo, xhi, yhi = zip(*areas)
    return (min(xlo), min(ylo), max(xhi), max(yhi))


def draw_on(tech, columns, brush, layer, area):
    for square in itertools.product(range(area[0], area[2]), range(area[1], area[3])):
        brush(tech, columns.setdefault(square, {}), layer)


def erase_column(tech, column, layer):
    """A square after a layer was erased from it."""
    sets = {(plane, tech.type_set(t)) for t, (plane, _) in enumerate(tech.types)}
    for plane, t in layer["images"].items():
        parts, old = tech.type_set(t), column.get(plane, frozenset())
        if parts <= old:
            column[plane] = old - parts if (plane, old - parts) in sets else frozenset()
    for base in tech.contacts.values():
        mark = {"mark of " + base["name"]}
        if any(not mark <= column.get(plane, frozenset()) for plane in base["images"]):
            for plane in column:
                column[plane] -= mark


def reaches(cells, start, end):
    """One use or more lead from one cell to the other."""
    seen, todo = set(), [start]
    while todo:
        for child, _, _ in cells[todo.pop()].uses.values():
            if child == end:
                return True
            if child not in seen:
                seen.add(child)
                todo.append(child)
    return False


def strips(squares):
    """The maximal horizontal strips, by their lowest row and then from left to right."""
    runs = []
    for x, y in squares:
        if (x - 1, y) not in squares:
            end = x + 1
            while (end, y) in squares:
                end += 1
            runs.append((y, x, end))
    left, found = set(runs), []
    for y, x, end in sorted(runs):
        if (y, x, end) in left:
            top = y
            while (top, x, end) in left:
                left.discard((top, x, end))
                top += 1
            found.append((x, y, end, top))
    return found


def read_file(tech, lines):
    """The cell of a text without faults, its scale, and the line that says it."""
    cell, scale, group = Cell(), ((1, 1), 1), None
    for number, line in enumerate(lines, 1):
        words = line.split()
        if not words or line[0] == "#" or group in GROUPS_READ_OVER and words[0] not in ("<<", "use"):
            continue
        if words[0] == "magscale":
            scale = (tuple(map(int, words[1:])), number)
        elif words[0] == "<<":
            group = words[1]
        elif words[0] == "rect":
            draw_on(tech, cell.columns, paint_column, tech.layer_of[group], list(map(int, words[1:])))
        elif words[0] == "rlabel":
            layer = None if words[1] == "space" else tech.layer_of[words[1]]
            cell.labels.append((layer, tuple(map(int, words[2:6])), int(words[6]), line.split(None, 7)[7].rstrip()))
        elif words[0] == "use":
            child, name, grid, group = words[1], words[2], None, None
        elif words[0] == "array":
            grid = tuple(map(int, words[1:]))
        elif words[0] == "transform":
            cell.uses[name] = (child, tuple(map(int, words[1:])), grid)
    return cell, scale


# ---- nodes with labels
def node_lines(tech, cell):
    of_set = {(plane, tech.type_set(t)): t for t, (plane, _) in enumerate(tech.types)}
    places = {(plane, y, x): of_set[plane, parts] for (x, y), column in cell.columns.items() for plane, parts in column.items() if parts}
    names, first = {}, set()
    for layer, area, _, text in cell.labels:
        place = attached(tech, places, layer, area) if is_naming(text) else None
        if place is not None and (text.endswith("!") or text not in first):
            first.add(text)
            names.setdefault(place, []).append(text)
    of_global = {}
    for place, texts in names.items():
        for text in texts:
            if text.endswith("!"):
                of_global.setdefault(text, []).append(place)
    left, lines = set(places), []
    for least in sorted(places):
        if least not in left:
            continue
        found, todo = set(), [least]
        left.discard(least)
        while todo:
            place = todo.pop()
            found.add(place)
            linked = [other for other in beside(place) if other in places and tech.connects(places[place], places[other])]
            for plane in range(len(tech.planes)):
                other = (plane,) + place[1:]
                if other in places and tech.connects(places[place], places[other]):
                    linked.append(other)
            for text in names.get(place, []):
                linked += of_global.get(text, [])
            for other in linked:
                if other in left:
                    left.discard(other)
                    todo.append(other)
        line = node_line(tech, places, least, found)
        texts = {text for place in found for text in names.get(place, [])}
        if texts:
            best = min(texts, key=lambda text: (not text.endswith("!"), len(text), text))
            line = 'node "%s"' % best + line[line.index('"', 6) + 1:]
        lines.append(line)
    return lines


def is_naming(text):
    return all(33 <= ord(byte) <= 126 and byte not in '/"' for byte in text) and not text.endswith("#")


def attached(tech, places, layer, area):
    """The least place that the label touches, of a type that has the layer's image within it."""
    if layer is None:
        return None
    xs = range(area[0], area[2]) if area[0] < area[2] else (area[0] - 1, area[0])
    ys = range(area[1], area[3]) if area[1] < area[3] else (area[1] - 1, area[1])
    for plane in range(len(tech.planes)):
        kind = layer["images"].get(plane)
        for y, x in itertools.product(ys, xs):
            found = places.get((plane, y, x))
            if kind is not None and found is not None and is_within(tech, kind, found):
                return (plane, y, x)
    return None


def is_within(tech, s, wide):
    return s == wide or tech.type_set(s) < tech.type_set(wide) and tech.connects(s, wide)


# ---- random scripts
class Script:
    """A script that grows, with the answers to its lines."""

    def __init__(self, dice, tech, files):
        self.dice, self.library, self.files = dice, Library(tech), files
        self.lines, self.report, self.stored = ["tech nm"], ["tech nm: 9 types 3 classes 2 fets"], []

    def say(self, line, do):
        self.lines.append(line)
        try:
            reply = do()
            self.report += ["ok"] if reply is None else reply
        except Refused as refused:
            self.report.append("line %d: %s" % (len(self.lines), refused))

    def number(self):
        return self.dice.choice([0, 0, 1, 1, -1, 2, 3, 4, 5, -2, -3, -5, 8])

    def far(self, edge):
        """A displacement, now and then a far one."""
        near = self.dice.randint(-9, 9)
        return near if self.dice.random() < 0.93 else self.dice.choice([-1, 1]) * edge + near

    def area(self):
        x, y = self.dice.randint(-6, 6), self.dice.randint(-6, 6)
        area = [x, y, x + self.dice.randint(1, 4), y + self.dice.randint(1, 4)]
        if self.dice.random() < 0.06:
            area[self.dice.randrange(4)] = self.dice.choice([-1, 1]) * (PAINT_EDGE + self.dice.choice([1, 5]))
        elif self.dice.random() < 0.06:
            area[self.dice.choice([2, 3])] = -6
        return area

    def six(self):
        a, b, d, e = self.dice.choice(ORIENTATIONS + [(1, 1, 0, 1)] * (self.dice.random() < 0.1))
        return [a, b, self.far(PAINT_EDGE), d, e, self.far(PAINT_EDGE)]

    def grid(self):
        few = [self.dice.randint(-2, 3) for _ in range(4)]
        if self.dice.random() < 0.1:
            few = [0, self.dice.choice([999, 1000]), 0, 999]
        return [few[0], few[1], self.far(USE_EDGE), few[2], few[3], self.far(PAINT_EDGE // 2)]

    def cell(self):
        known = list(self.library.cells)
        return self.dice.choice(known * 3 + ["none"])

    def use_id(self):
        cell = self.library.cells.get(self.library.current)
        known = list(cell.uses) if cell else []
        return self.dice.choice(known * 3 + ["u", "v", "w.1"])

    def layer(self):
        return self.dice.choice(list(self.library.tech.layer_of) * 3 + ["none", "space", "space"])

    def text(self):
        return self.dice.choice(["a", "b", "Vdd!", "GND!", "a  b", "c/d", "e#", "out", "!"])

    def step(self):
        library, dice = self.library, self.dice
        kind = dice.choices(["new", "edit", "paint", "erase", "place", "array", "move", "delete", "label", "unlabel", "save", "nodes", "load"],
                            [6, 9, 18, 6, 14, 6, 6, 3, 10, 2, 6, 6, 6])[0]
        if kind == "new":
            name = dice.choice("abcdef")
            self.say("new " + name, lambda: library.new(name))
        elif kind == "edit":
            name = self.cell()
            self.say("edit " + name, lambda: library.edit(name))
        elif kind in ("paint", "erase"):
            layer, area = self.layer(), self.area()
            brush = paint_column if kind == "paint" else erase_column
            self.say("%s %s %d %d %d %d" % ((kind, layer) + tuple(area)), lambda: library.draw(brush, layer, area))
        elif kind == "place":
            child, name, six = self.cell(), self.use_id(), self.six()
            self.say("place %s %s %s" % (child, name, " ".join(map(str, six))), lambda: library.place(child, name, six))
        elif kind == "array":
            name, grid = self.use_id(), self.grid()
            self.say("array %s %s" % (name, " ".join(map(str, grid))), lambda: library.array(name, grid))
        elif kind == "move":
            name, dx, dy = self.use_id(), self.far(PAINT_EDGE), self.number()
            self.say("move %s %d %d" % (name, dx, dy), lambda: library.move(name, dx, dy))
        elif kind == "delete":
            name = self.use_id()
            self.say("delete " + name, lambda: library.delete(name))
        elif kind == "label":
            layer, area, position, text = self.layer(), self.area(), dice.randint(0, 8), self.text()
            if dice.random() < 0.3:
                area[2] = area[0]
            if dice.random() < 0.3:
                area[3] = area[1]
            self.say("label %s %d %d %d %d %d %s" % ((layer,) + tuple(area) + (position, text)), lambda: library.label(layer, area, position, text))
        elif kind == "unlabel":
            text = self.text()
            self.say("unlabel " + text, lambda: library.unlabel(text))
        elif kind == "load":
            name = dice.choice("pqrstuc")
            self.say("load " + name, lambda: ["load %s: %d cells" % (name, library.load(name, self.files))])
        else:
            name = self.cell()
            self.say(kind + " " + name, lambda: self.told(kind, name))

    def told(self, kind, name):
        self.library.named(name)
        if kind == "nodes":
            return self.library.nodes(name)
        text = self.library.save(name)
        self.stored.append((name + ".mag", text))
        self.files[name + ".mag"] = text.split("\n")[:-1]
        return ["save " + name]


def random_file(dice, tech, children):
    lines = ["magic"] + dice.sample(["tech nm", "timestamp 3", "magscale 1 1"], dice.randint(0, 3))
    if dice.random() < 0.06:
        lines.append("magscale 1 2") if "magscale 1 1" not in lines else None
    names = ["u", "v", "w.1", "x"]
    for _ in range(dice.randint(0, 4)):
        if dice.random() < 0.5:
            lines.append("<< %s >>" % dice.choice(list(tech.layer_of)))
            for _ in range(dice.randint(0, 3)):
                x, y = dice.randint(-6, 6), dice.randint(-6, 6)
                lines.append("rect %d %d %d %d" % (x, y, x + dice.randint(1, 5), y + dice.randint(1, 5)))
        elif children:
            a, b, d, e = dice.choice(ORIENTATIONS)
            lines.append("use %s %s" % (dice.choice(children), names.pop()))
            if dice.random() < 0.3:
                lines.append("array 0 %d %d %d 0 %d" % (dice.randint(-2, 2), dice.randint(-9, 9), dice.randint(-1, 1), dice.randint(-9, 9)))
            lines += ["timestamp 0"] * dice.randint(0, 1)
            lines += ["transform %d %d %d %d %d %d" % (a, b, dice.randint(-9, 9), d, e, dice.randint(-9, 9)), "box 0 0 1 1"]
        else:
            lines += ["# nothing", "", "<< properties >>", "rect"]
    if dice.random() < 0.4:
        lines += ["<< labels >>", "rlabel %s 0 0 2 %d 3 %s" % (dice.choice(list(tech.layer_of)), dice.randint(0, 2), dice.choice(["in", "Vdd!", "a b"]))]
    return lines + ["<< end >>"]


def edit_cases(dice, count):
    with open(os.path.join(os.path.dirname(__file__), "../crates/run_tests/data/nm.tech")) as file:
        tech, _ = read_technology(file.read())
    for number in range(1, count + 1):
        names = "pqrst"
        files = {}
        for at, name in enumerate(names):
            children = names[at + 1:] if dice.random() < 0.85 else names
            files[name + ".mag"] = random_file(dice, tech, dice.choice([list(children), list(children) + ["c", "d"]]))
        given = [(name, "\n".join(lines) + "\n") for name, lines in files.items()]
        script = Script(dice, tech, files)
        if dice.random() < 0.9:
            script.say("new a", lambda: script.library.new("a"))
        for _ in range(dice.randint(10, 45)):
            script.step()
        status = int(any(line.startswith("line ") for line in script.report))
        yield "edits %d" % number, given, script.lines, script.report, status, script.stored


def main():
    print("# Random cases, written by bench/random_edits.py. Their answers were worked out there, apart from the program.")
    for name, given, lines, report, status, stored in edit_cases(random.Random(14), 120):
        written_cases([(name, given, lines, report, status)])
        for file, text in stored:
            print("stored " + file)
            for line in text.split("\n")[:-1]:
                print("|" + line)


if __name__ == "__main__":
    main()
