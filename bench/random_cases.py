#!/usr/bin/env python3
"""Writes random cases with known answers for the program run_tests.

    random_cases.py technologies >crates/run_tests/data/random_technologies.cases
    random_cases.py cells >crates/run_tests/data/random_cells.cases
    random_cases.py layouts >crates/run_tests/data/random_layouts.cases

The answers are worked out here, from the rules that stand in this file, and never by running the program: a
technology is read line by line with sets of names, and the nodes of a cell are flooded square by square.
"""
import itertools
import os
import random
import re
import sys

SECTIONS = ["tech", "planes", "types", "contact", "compose", "connect", "extract"]
RESERVED = {"space", "end", "labels", "checkpaint", "error_p", "error_s", "error_ps", "properties"}
PLAIN = re.compile(r"[A-Za-z0-9_-]{1,64}\Z")
WORD = re.compile(r"[A-Za-z0-9_*~()/-]{1,64}\Z")
PIECE = re.compile(r"[A-Za-z0-9_*~()-]{1,64}\Z")
EXPRESSION = re.compile(r"[*~()]")
NUMBER = re.compile(r"-?[0-9]+\Z")


class Fault(Exception):
    """A fault of a technology: its code and its words."""

    def __init__(self, code, *words):
        super().__init__(code)
        self.code, self.words = code, words


class Technology:
    """The lists of a technology as far as its text was read."""

    def __init__(self):
        self.name = None
        self.planes, self.layers, self.types = [], [], []
        self.layer_of = {}
        self.contacts, self.residues_of, self.results, self.parts = {}, {}, {}, set()
        self.pairs, self.classes, self.capped, self.fets = set(), [], {}, []

    # A layer is a dict of its plane, its number and its images, a dict from planes to numbers of types.
    def layer(self, word):
        if word not in self.layer_of:
            raise Fault("T3", word)
        return self.layer_of[word]

    def type_name(self, t):
        plane, layer = self.types[t]
        own = layer["plane"] == plane
        return layer["name"] if own else layer["name"] + "/" + self.planes[plane]

    # ---- the lines of the sections
    def read_tech(self, words):
        if len(words) != 1 or not PLAIN.match(words[0]) or self.name is not None:
            raise Fault("T11")
        self.name = words[0]

    def read_planes(self, words):
        if len(words) != 1 or not PLAIN.match(words[0]):
            raise Fault("T11")
        if words[0] in self.planes:
            raise Fault("T4", words[0])
        if len(self.planes) == 8:
            raise Fault("T10", "planes")
        self.planes.append(words[0])

    def read_types(self, words):
        if len(words) != 2 or not PLAIN.match(words[0]):
            raise Fault("T11")
        names = words[1].split(",")
        if any(not PLAIN.match(name) or name in RESERVED for name in names):
            raise Fault("T11")
        if words[0] not in self.planes:
            raise Fault("T2", words[0])
        for place, name in enumerate(names):
            if name in self.layer_of or name in names[:place]:
                raise Fault("T4", name)
        if len(self.types) == 64:
            raise Fault("T10", "types")
        plane = self.planes.index(words[0])
        layer = {"name": names[0], "plane": plane, "images": {plane: len(self.types)}}
        self.layers.append(layer)
        self.types.append((plane, layer))
        for name in names:
            self.layer_of[name] = layer

    def plain_words(self, words):
        if any(not WORD.match(word) for word in words):
            raise Fault("T11")
        for word in words:
            if EXPRESSION.search(word) or "/" in word:
                raise Fault("T12", word)
        return [self.layer(word) for word in words]

    def read_contact(self, words):
        if len(words) < 3:
            raise Fault("T11")
        layers = self.plain_words(words)
        base, residues = layers[0], layers[1:]
        planes = [layer["plane"] for layer in residues]
        if len(set(planes)) < len(planes) or base["plane"] not in planes:
            raise Fault("T11")
        if id(base) in self.contacts:
            raise Fault("T4", words[0])
        if any(base in other for other in self.residues_of.values()):
            raise Fault("T6", words[0])
        for word, layer in zip(words[1:], residues):
            if layer is base or id(layer) in self.contacts:
                raise Fault("T6", word)
        self.contacts[id(base)] = base
        self.residues_of[id(base)] = residues
        for layer in residues:
            if layer["plane"] != base["plane"]:
                base["images"][layer["plane"]] = len(self.types)
                self.types.append((layer["plane"], base))

    def read_compose(self, words):
        if len(words) != 4 or words[0] != "compose":
            raise Fault("T11")
        layers = self.plain_words(words[1:])
        if len({layer["plane"] for layer in layers}) > 1 or len({id(layer) for layer in layers}) < 3:
            raise Fault("T11")
        result = layers[0]
        if id(result) in self.results or id(result) in self.parts:
            raise Fault("T4", words[1])
        for word, layer in zip(words[1:], layers):
            if id(layer) in self.contacts:
                raise Fault("T6", word)
        self.results[id(result)] = layers[1:]
        self.parts |= {id(layer) for layer in layers[1:]}

    def types_of(self, lists):
        """The types of each entry of some lists, an entry at a time."""
        entries = [entry for text in lists for entry in text.split(",")]
        pieces = [entry.split("/") for entry in entries]
        if any(len(piece) > 2 or not all(PIECE.match(part) for part in piece) for piece in pieces):
            raise Fault("T11")
        for entry in entries:
            if EXPRESSION.search(entry):
                raise Fault("T12", entry)
        for piece in pieces:
            if len(piece) == 2 and piece[1] not in self.planes:
                raise Fault("T2", piece[1])
        for piece in pieces:
            layer = self.layer(piece[0])
            if len(piece) == 2 and self.planes.index(piece[1]) not in layer["images"]:
                raise Fault("T3", piece[0])
        return [self.types_of_entry(piece) for piece in pieces]

    def types_of_entry(self, piece):
        images = self.layer(piece[0])["images"]
        if len(piece) == 2:
            return [images[self.planes.index(piece[1])]]
        own = self.layer(piece[0])["plane"]
        return [images[own]] + [image for plane, image in images.items() if plane != own]

    def read_connect(self, words):
        if len(words) != 2:
            raise Fault("T11")
        types = self.types_of(words)
        count = len(words[0].split(","))
        left = [t for entry in types[:count] for t in entry]
        right = [t for entry in types[count:] for t in entry]
        for s, t in itertools.product(left, right):
            if s != t and self.types[s][0] == self.types[t][0]:
                self.pairs |= {(s, t), (t, s)}

    def read_extract(self, words):
        forms = {"resist": (3, self.read_resist), "cap": (4, self.read_cap), "fet": (5, self.read_fet)}
        if words[0] in forms:
            count, read = forms[words[0]]
            if len(words) != count:
                raise Fault("T11")
            read(*words[1:])

    def class_of(self, t):
        return next((c for c, types in enumerate(self.classes) if t in types), None)

    def read_resist(self, text, value):
        if not NUMBER.match(value) or not 0 <= int(value) <= 1000000:
            raise Fault("T11")
        types = self.types_of([text])
        for entry, found in zip(text.split(","), types):
            if any(self.class_of(t) is not None for t in found):
                raise Fault("T4", entry.split("/")[0])
        if len(self.classes) == 16:
            raise Fault("T10", "classes")
        self.classes.append({t for entry in types for t in entry})

    def read_cap(self, text, *numbers):
        if any(not NUMBER.match(n) or not 0 <= int(n) <= 1000000 for n in numbers):
            raise Fault("T11")
        types = self.types_of([text])
        classes = {self.class_of(t) for entry in types for t in entry}
        if len(classes) > 1 or None in classes:
            raise Fault("T11")
        if classes <= set(self.capped):
            raise Fault("T4", text.split(",")[0].split("/")[0])
        self.capped.update((c, tuple(map(int, numbers))) for c in classes)

    def read_fet(self, kind, text, name, substrate):
        naming = re.match(r"[!-~]{1,255}\Z", substrate) and not re.search(r"[/\"]|#\Z", substrate)
        if "," in kind or not PLAIN.match(name) or not naming:
            raise Fault("T11")
        types = self.types_of([kind, text])
        if len(types[0]) > 1:
            raise Fault("T11")
        kind_type = types[0][0]
        if any(kind_type == other for other, _, _ in self.fets):
            raise Fault("T4", kind.split("/")[0])
        if len(self.fets) == 16:
            raise Fault("T10", "fets")
        terminals = list(dict.fromkeys(t for entry in types[1:] for t in entry))
        self.fets.append((kind_type, terminals, name))

    # ---- the checks on the whole
    def set_of(self, layer):
        if id(layer) in self.results:
            one, other = self.results[id(layer)]
            return self.set_of(one) | self.set_of(other)
        return frozenset([layer["name"]])

    def type_set(self, t):
        plane, layer = self.types[t]
        if id(layer) not in self.contacts:
            return self.set_of(layer)
        residue = next(r for r in self.residues_of[id(layer)] if r["plane"] == plane)
        return self.set_of(residue) | {"mark of " + layer["name"]}

    def connects(self, s, t):
        return s == t or (s, t) in self.pairs or self.types[s][1] is self.types[t][1]

    def check(self):
        count = range(len(self.types))
        sets = [self.type_set(t) for t in count]
        for s, t in itertools.combinations(count, 2):
            if self.types[s][0] == self.types[t][0] and sets[s] == sets[t]:
                raise Fault("T5", self.type_name(s), self.type_name(t))
        for kind, terminals, _ in self.fets:
            for t in terminals:
                if self.connects(kind, t):
                    raise Fault("T8", self.type_name(kind), self.type_name(t))
        for _, _, name in self.fets:
            if name[0] not in "enpd":
                raise Fault("T9", name)
        within = [(s, w) for s in count for w in count
                  if s == w or sets[s] < sets[w] and self.connects(s, w)]
        for (s, wide_s), (t, wide_t) in itertools.product(within, within):
            if self.connects(s, t) and not self.connects(wide_s, wide_t):
                raise Fault("T7", *map(self.type_name, (s, t, wide_s, wide_t)))


def lines_of(text):
    lines = text.split("\n")
    return lines[:-1] if lines[-1] == "" else lines


def outline(lines):
    """The first line of each section that is read."""
    first, inside = {}, False
    for number, line in enumerate(lines, 1):
        words = line.split()
        if not words or words[0].startswith("#"):
            continue
        if inside:
            inside = words != ["end"]
        elif len(words) == 1 and words != ["end"]:
            inside = True
            if words[0] in SECTIONS:
                first.setdefault(words[0], number)
    return first, inside


def read_technology(text):
    """The technology of a text, or the line and the fault."""
    lines = lines_of(text)
    first, ends_open = outline(lines)
    last = max(len(lines), 1)
    tech, section, seen = Technology(), None, set()
    number = 0
    try:
        for number, line in enumerate(lines, 1):
            if ends_open and number == last:
                raise Fault("T11")
            words = line.split()
            if not words or words[0].startswith("#"):
                continue
            if section is None:
                if len(words) != 1 or words == ["end"]:
                    raise Fault("T11")
                section = words[0]
                if section in SECTIONS:
                    before = SECTIONS[:SECTIONS.index(section)]
                    if first[section] == number and any(first.get(s, 0) > number for s in before):
                        raise Fault("T11")
                    if section in seen:
                        raise Fault("T4", section)
                    seen.add(section)
            elif words == ["end"]:
                if section == "tech" and tech.name is None:
                    raise Fault("T11")
                section = None
            elif section in SECTIONS:
                getattr(tech, "read_" + section)(words)
        number = last
        for name in ("tech", "planes", "types", "connect", "extract"):
            if name not in seen:
                raise Fault("T1", name)
        tech.check()
        return tech, None
    except Fault as fault:
        return number, fault


def answer(name, text):
    """What the command `tech` reports of a file, and the exit status."""
    tech, fault = read_technology(text)
    if fault is None:
        counts = (tech.name, len(tech.types), len(tech.classes), len(tech.fets))
        return "tech %s: %d types %d classes %d fets" % counts, 0
    words = " ".join((fault.code,) + fault.words)
    return "line 1: E5 %s %d %s" % (name, tech, words), 1


# ---- random technologies
def random_lines(dice):
    """A technology, most often without fault: a list of lines."""
    planes = ["low", "mid", "top"][:dice.randint(1, 3)]
    if dice.random() < 0.02:
        planes += ["p%d" % number for number in range(7)]
    layers, lines = [], ["tech", " t%d" % dice.randrange(100), "end", "planes"]
    lines += [" " + plane for plane in planes] + ["end", "types"]
    for place in range(dice.randint(3, 7)):
        name = "abcdefg"[place]
        aliases = [name + "x"] if dice.random() < 0.3 else []
        layers.append((name, dice.choice(planes)))
        lines.append(" %s %s" % (layers[-1][1], ",".join([name] + aliases)))
    lines.append("end")
    of = {plane: [name for name, where in layers if where == plane] for plane in planes}
    contact, images = None, []
    if len(planes) > 1 and dice.random() < 0.7:
        some = [plane for plane in planes if of[plane]]
        base = next((p for p in some if len(of[p]) > 2), None)
        others = [plane for plane in some if plane != base]
        if base and others:
            contact = of[base].pop()
            residues = [of[base][0]] + [of[plane][0] for plane in others]
            images = [contact + "/" + plane for plane in [base] + others]
            lines += ["contact", " %s %s" % (contact, " ".join(residues)), "end"]
    full = next((plane for plane in planes if len(of[plane]) > 2), None)
    composed = None
    if full and dice.random() < 0.6:
        composed = of[full][2]
        lines += ["compose", " compose %s %s %s" % (composed, of[full][0], of[full][1])]
        if len(of[full]) > 3:
            lines.append(" compose %s %s %s" % (of[full][3], of[full][1], dice.choice([of[full][0], composed])))
        elif contact and dice.random() < 0.3:
            lines.append(" compose %s %s %s" % (contact, of[full][1], composed))
        lines.append("end")
    lines.append("connect")
    for _ in range(dice.randint(0, 3)):
        names = [name for name, _ in layers] + images
        lists = [",".join(dice.sample(names, min(len(names), dice.randint(1, 2)))) for _ in range(2)]
        lines.append(" %s %s" % tuple(lists))
    lines += ["end", "extract"]
    free = [name for name, _ in layers]
    for _ in range(dice.randint(0, 2)):
        types = [free.pop(0) for _ in range(min(len(free), dice.randint(1, 2)))]
        if types:
            lines.append(" resist %s %d" % (",".join(types), dice.choice([0, 30, 1000000])))
            if dice.random() < 0.5:
                lines.append(" cap %s %d %d" % (types[0], dice.randrange(900), dice.randrange(90)))
    if composed:
        lines.append(" fet %s %s %s GND!" % (composed, of[full][0], dice.choice(["efet", "nmos", "p", "xfet"])))
    return lines + ["end"]


def mutated(dice, lines):
    """One change of a line or of a word."""
    lines = list(lines)
    place = dice.randrange(len(lines))
    words = lines[place].split()
    strange = ["zz", "a", "b", "c", "low", "mid", "a.b", "a*", "(b)", "a/low", "b/mid", "c/zz", "a,b", "-1", "1000001", "end", "7"]
    kind = dice.randrange(7)
    if kind == 0:
        del lines[place]
    elif kind == 1:
        lines.insert(place, lines[place])
    elif kind == 2:
        other = dice.randrange(len(lines))
        lines[place], lines[other] = lines[other], lines[place]
    elif kind == 3:
        words.append(dice.choice(strange))
    elif kind == 4 and words:
        del words[dice.randrange(len(words))]
    elif words:
        at = dice.randrange(len(words))
        pieces = words[at].split(",")
        pieces[dice.randrange(len(pieces))] = dice.choice(strange)
        words[at] = ",".join(pieces)
    if kind > 2:
        lines[place] = " " * (place % 2) + " ".join(words)
    return lines


def technology_cases(dice, most):
    """At most so many cases of each answer, and as many without fault as all others together at most."""
    counts, cases = {}, []
    for _ in range(4000):
        lines = random_lines(dice)
        for _ in range(dice.choice([0, 1, 1, 1, 2])):
            lines = mutated(dice, lines)
        text = "\n".join(lines) + "\n"
        report, status = answer("t.tech", text)
        code = report.split()[5] if status else "read"
        if counts.get(code, 0) < most * (3 if code == "read" else 1):
            counts[code] = counts.get(code, 0) + 1
            cases.append((code, text, report, status))
    cases.sort(key=lambda case: (case[0] != "read", int(case[0][1:] or 0) if case[0] != "read" else 0))
    numbers = {}
    for code, text, report, status in cases:
        numbers[code] = numbers.get(code, 0) + 1
        yield "%s %d" % (code, numbers[code]), [("t.tech", text)], ["tech t"], [report], status


# ---- random cells of plain technologies
def random_plain(dice):
    names = ["left", "right", "mid_1"][:dice.randint(1, 3)]
    area, edge = dice.choice([(10, 1), (0, 7), (400, 100), (1000000, 0)])
    lines = ["tech", " plain", "end", "planes", " wire", "end", "types"]
    lines += [" wire %s,%s" % (name, name[0]) for name in names]
    lines += ["end", "connect", "end", "extract", " resist %s 5" % ",".join(names), " cap %s %d %d" % (names[0], area, edge), "end"]
    return names, area, edge, "\n".join(lines) + "\n"


def random_rects(dice, names):
    """Rectangles in turn, each of a layer."""
    drawn = []
    for _ in range(dice.randint(0, 7)):
        x, y = dice.randint(-6, 5), dice.randint(-6, 5)
        drawn.append((dice.choice(names), x, y, x + dice.randint(1, 5), y + dice.randint(1, 4)))
    return drawn


def painted(drawn):
    """The layer of each square: a later rectangle takes the place of an earlier one."""
    squares = {}
    for name, xlo, ylo, xhi, yhi in drawn:
        for x, y in itertools.product(range(xlo, xhi), range(ylo, yhi)):
            squares[x, y] = name
    return squares


def node_lines(squares, area, edge):
    """Squares of one layer that chains of edge neighbours join are a node. Its perimeter are its edges to bare squares."""
    left, nodes = dict(squares), []
    for x, y in sorted(squares, key=lambda square: (square[1], square[0])):
        if (x, y) not in left:
            continue
        name, found, todo = squares[x, y], set(), [(x, y)]
        while todo:
            square = todo.pop()
            if left.get(square) == name:
                del left[square]
                found.add(square)
                todo += neighbours(square)
        edges = sum(other not in squares for square in found for other in neighbours(square))
        generated = "%s_%s_%s#" % (name, written(x), written(y))
        capacitance = len(found) * area + edges * edge
        nodes.append('node "%s" 0 %d %d %d %s %d %d' % (generated, capacitance, x, y, name, len(found), edges))
    return nodes


def neighbours(square):
    x, y = square
    return [(x + 1, y), (x - 1, y), (x, y + 1), (x, y - 1)]


def written(number):
    return "n%d" % -number if number < 0 else str(number)


def mag_text(dice, names, drawn):
    """The cell's text. A group's name is the layer's, or its alias."""
    lines = ["magic"]
    lines += dice.sample(["tech plain", "timestamp %d" % dice.randint(-5, 99)], dice.randint(0, 2))
    group = None
    for name, *bounds in drawn:
        if name != group or dice.random() < 0.2:
            group = name
            lines.append("<< %s >>" % dice.choice([name, name[0]]))
        lines.append("rect %d %d %d %d" % tuple(bounds))
    return "\n".join(lines + ["<< end >>"]) + "\n"


def broken(dice, text):
    """The text with one more line, and the line and the code of the fault that it makes, if it makes one."""
    lines = text.split("\n")[:-1]
    bad = ["", "# note", "rect 1 2 3", "rect 4 4 4 5", "<< space >>", "use a b", "magscale 1 2", "rect 0 0 1 67108859", "<< other >>"]
    at = dice.randint(1, len(lines) - 1)
    line = dice.choice(bad)
    in_group = any(before.startswith("<<") for before in lines[:at])
    lines.insert(at, line)
    if line.startswith("<<"):
        fault = (at + 1, "M3")
    elif line == "use a b":
        fault = (at + (3 if lines[at + 1].startswith("timestamp") else 2), "M2")
    elif line.startswith("magscale"):
        fault = (at + 1, "M2") if in_group else None
    elif line.startswith("rect"):
        in_place = {"rect 4 4 4 5": "M4", "rect 0 0 1 67108859": "M5"}.get(line, "M2")
        fault = (at + 1, in_place if in_group else "M2")
    else:
        fault = None
    return "\n".join(lines) + "\n", fault


def cell_cases(dice, count):
    for number in range(1, count + 1):
        names, area, edge, tech = random_plain(dice)
        counts = "tech plain: %d types 1 classes 0 fets" % len(names)
        drawn = random_rects(dice, names)
        text = mag_text(dice, names, drawn)
        script, report = ["tech plain"], [counts]
        fault = None
        is_changed = dice.random() >= 0.8
        if is_changed:
            text, fault = broken(dice, text)
        if dice.random() < 0.3:
            script.append("nodes c")
            report.append("line 2: E8 no cell c")
        if dice.random() < 0.2:
            script.append("load none")
            report.append("line %d: E6 no file none.mag" % len(script))
        script.append("load c")
        report.append("line %d: E7 c.mag %d %s" % ((len(script),) + fault) if fault else "load c: 1 cells")
        if dice.random() < 0.2 and not is_changed:
            script.append("load c")
            report.append("line %d: E9 cell exists c" % len(script))
        script.append("nodes c")
        report += ["line %d: E8 no cell c" % len(script)] if fault else node_lines(painted(drawn), area, edge)
        status = int(any(line.startswith("line ") for line in report))
        yield "cell %d" % number, [("plain.tech", tech), ("c.mag", text)], script, report, status


# ---- random cells of any technology
def paint_column(tech, column, layer):
    """A square after a layer was painted on it: a set of parts for each plane."""
    sets = {(plane, tech.type_set(t)) for t, (plane, _) in enumerate(tech.types)}
    for plane, image in layer["images"].items():
        whole = column.get(plane, frozenset()) | tech.type_set(image)
        column[plane] = whole if (plane, whole) in sets else tech.type_set(image)
    for base in tech.contacts.values():
        mark = {"mark of " + base["name"]}
        if any(not mark <= column.get(plane, frozenset()) for plane in base["images"]):
            for plane in column:
                column[plane] -= mark


def painted_places(tech, drawn):
    """The type at each place: a plane, y and x."""
    columns = {}
    for layer, xlo, ylo, xhi, yhi in drawn:
        for x, y in itertools.product(range(xlo, xhi), range(ylo, yhi)):
            paint_column(tech, columns.setdefault((x, y), {}), layer)
    of_set = {(plane, tech.type_set(t)): t for t, (plane, _) in enumerate(tech.types)}
    return {(plane, y, x): of_set[plane, parts] for (x, y), column in columns.items() for plane, parts in column.items() if parts}


def beside(place):
    plane, y, x = place
    return [(plane, y + 1, x), (plane, y - 1, x), (plane, y, x + 1), (plane, y, x - 1)]


def layout_nodes(tech, places):
    """The lines of the nodes: places that chains of links join, by their least places."""
    left, lines = set(places), []
    planes = range(len(tech.planes))
    for least in sorted(places):
        if least not in left:
            continue
        found, todo = set(), [least]
        left.discard(least)
        while todo:
            place = todo.pop()
            found.add(place)
            for other in beside(place) + [(plane,) + place[1:] for plane in planes]:
                if other in left and tech.connects(places[place], places[other]):
                    left.discard(other)
                    todo.append(other)
        lines.append(node_line(tech, places, least, found))
    return lines


def node_line(tech, places, least, found):
    """A node's line: its measures are counted place by place, in each class."""
    measures, capacitance = [], 0
    for number, types in enumerate(tech.classes):
        inside = [place for place in found if places[place] in types]
        edges = sum(places.get(other) not in types for place in inside for other in beside(place))
        of_area, of_edge = tech.capped.get(number, (0, 0))
        capacitance += len(inside) * of_area + edges * of_edge
        measures += [len(inside), edges]
    word = tech.types[places[least]][1]["name"]
    name = "%s_%s_%s#" % (word, written(least[2]), written(least[1]))
    return " ".join(['node "%s" 0 %d %d %d %s' % (name, capacitance, least[2], least[1], word)] + list(map(str, measures)))


def any_technology(dice):
    """The example technology, or a random one without fault that has a layer: its text and its lists."""
    if dice.random() < 0.4:
        with open(os.path.join(os.path.dirname(__file__), "../crates/run_tests/data/nm.tech")) as file:
            text = file.read()
        return text, read_technology(text)[0]
    while True:
        text = "\n".join(random_lines(dice)) + "\n"
        tech, fault = read_technology(text)
        if fault is None and tech.layers:
            return text, tech


def layout_cases(dice, count):
    for number in range(1, count + 1):
        text, tech = any_technology(dice)
        drawn = []
        for _ in range(dice.randint(1, 12)):
            x, y = dice.randint(-4, 4), dice.randint(-4, 4)
            drawn.append((dice.choice(tech.layers), x, y, x + dice.randint(1, 4), y + dice.randint(1, 4)))
        lines = ["magic"]
        for layer, *bounds in drawn:
            lines += ["<< %s >>" % layer["name"], "rect %d %d %d %d" % tuple(bounds)]
        cell = "\n".join(lines + ["<< end >>"]) + "\n"
        told, _ = answer("t.tech", text)
        report = [told, "load c: 1 cells"] + layout_nodes(tech, painted_places(tech, drawn))
        yield "layout %d" % number, [("t.tech", text), ("c.mag", cell)], ["tech t", "load c", "nodes c"], report, 0


def written_text(text):
    """The lines of a case that stand for a text."""
    for line in text.splitlines(keepends=True):
        print("|" + line[:-1] if line.endswith("\n") else "~" + line.replace("\\", "\\\\"))


def written_cases(cases):
    """Writes cases: their names, files, scripts, reports and statuses, and behind these the stores that they make, if any."""
    for name, files, script, report, status, *stored in cases:
        print("\ncase " + name)
        for file, text in files:
            print("file " + file)
            written_text(text)
        print("script")
        for line in script:
            print("|" + line)
        if status:
            print("status %d" % status)
        print("report")
        for line in report:
            print("|" + line)
        for file, lines in (stored[0] if stored else []):
            print("stored " + file)
            for line in lines:
                print("|" + line)


def main():
    kind = sys.argv[1]
    print("# Random cases, written by bench/random_cases.py. Their answers were worked out there, apart from the program.")
    if kind == "technologies":
        written_cases(technology_cases(random.Random(11), 7))
    elif kind == "cells":
        written_cases(cell_cases(random.Random(12), 60))
    elif kind == "layouts":
        written_cases(layout_cases(random.Random(13), 90))


if __name__ == "__main__":
    main()
