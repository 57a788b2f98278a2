"""Records, flat circuits and sim files of the cells of a library of `random_edits`, worked out square by square.

Nothing of this comes from the program: nodes are flooded in the flat layout, what joins in a cell is found by laying the squares of its members over
each other, and measures are counted edge by edge. It is slow, and meant for layouts of some hundred thousand squares at most.
"""
from random_cases import beside, written
from random_edits import attached, is_naming, node_lines
from random_squares import Cell, Flat, Use


def name_key(name):
    """The order of names: global ones, then labels, then generated ones; fewer slashes, fewer bytes, lesser bytes first."""
    kind = 0 if name.endswith("!") else 2 if name.endswith("#") else 1
    return kind, name.count("/"), len(name), name.encode()


class Classes:
    """Items in classes: two items that are joined are in one class."""

    def __init__(self):
        self.above = {}

    def top(self, item):
        path = [item]
        while self.above.get(path[-1], path[-1]) != path[-1]:
            path.append(self.above[path[-1]])
        self.above.update((passed, path[-1]) for passed in path)
        return path[-1]

    def join(self, one, other):
        self.above[self.top(one)] = self.top(other)


class Extracting:
    """What the lines of a technology's `extract` section say beside its lists: the values of classes, and substrates."""

    def __init__(self, text):
        lines = [line.split() for line in text.splitlines()]
        self.values = [words[2] for words in lines if words[:1] == ["resist"] and len(words) == 3]
        self.substrates = [words[4] for words in lines if words[:1] == ["fet"] and len(words) == 5]


class Node:
    """A node of a cell's own paint, or a group of joined members: its places, its names in order, and its measure."""

    def __init__(self, places, names, measure):
        self.places, self.names, self.measure = places, names, measure
        self.least = min(places)


class Fet:
    def __init__(self, kind, places):
        self.kind, self.places, self.least = kind, places, min(places)
        self.perimeter, self.gate, self.terminals = 0, None, []


class Layouts(Flat):
    """The flat layouts of the cells of a library, each worked out once."""

    def __init__(self, library):
        super().__init__(library.tech)
        self.library, self.cells, self.wholes = library, {}, {}

    def cell(self, name):
        if name not in self.cells:
            cell = self.cells[name] = Cell(name)
            for word, (child, (a, b, c, d, e, f), grid) in self.library.cells[name].uses.items():
                steps = grid and (abs(grid[1] - grid[0]) + 1, grid[2], abs(grid[4] - grid[3]) + 1, grid[5])
                cell.uses.append(Use(self.cell(child), word, (a, b, d, e), (c, f), steps))
        return self.cells[name]

    def own(self, cell):
        columns = self.library.cells[cell.name].columns
        return {(plane, y, x): parts for (x, y), column in columns.items() for plane, parts in column.items() if parts}

    def whole(self, cell):
        if cell.name not in self.wholes:
            self.wholes[cell.name] = super().whole(cell)
        return self.wholes[cell.name]

    def kinds(self, layout):
        return {place: self.kind_of[place[0], parts] for place, parts in layout.items()}


class Circuits:
    """The records and circuits of clean cells."""

    def __init__(self, library, text):
        self.library, self.tech, self.layouts, self.said = library, library.tech, Layouts(library), Extracting(text)
        self.kept = {}

    def once(self, kind, name, make):
        if (kind, name) not in self.kept:
            self.kept[kind, name] = make(name)
        return self.kept[kind, name]

    def flat(self, name):
        return self.once("flat", name, lambda name: self.layouts.kinds(self.layouts.whole(self.layouts.cell(name))))

    # ---- measures
    def measure(self, places, kinds):
        """The areas and perimeters of some places in a layout, class by class, and the capacitance."""
        numbers, capacitance = [], 0
        for number, types in enumerate(self.tech.classes):
            inside = [place for place in places if kinds[place] in types]
            edges = sum(kinds.get(other) not in types for place in inside for other in beside(place))
            of_area, of_edge = self.tech.capped.get(number, (0, 0))
            capacitance += len(inside) * of_area + edges * of_edge
            numbers += [len(inside), edges]
        return [capacitance] + numbers

    # ---- what links places
    def linked(self, place, kinds):
        """The places that this one is linked with."""
        others = beside(place) + [(plane,) + place[1:] for plane in range(len(self.tech.planes)) if plane != place[0]]
        return [other for other in others if other in kinds and self.tech.connects(kinds[place], kinds[other])]

    def regions(self, kinds):
        """The regions of a layout: for each place the least place of its region."""
        region = {}
        for least in sorted(kinds):
            todo = [] if least in region else [least]
            while todo:
                place = todo.pop()
                if place not in region:
                    region[place] = least
                    todo += self.linked(place, kinds)
        return region

    # ---- the own paint of a cell
    def own(self, name):
        return self.once("own", name, lambda name: self.layouts.kinds(self.layouts.own(self.layouts.cell(name))))

    def labels(self, name):
        """Where each label attaches, or None, in the order of the labels."""
        seen, found = set(), []
        for layer, area, _, text in self.library.cells[name].labels:
            place = attached(self.tech, self.own(name), layer, area) if is_naming(text) else None
            if place is not None and not text.endswith("!") and text in seen:
                place = None
            if place is not None:
                seen.add(text)
            found.append((text, place))
        return found

    def nodes(self, name):
        return self.once("nodes", name, self.own_nodes)

    def own_nodes(self, name):
        kinds, classes = self.own(name), Classes()
        region = self.regions(kinds)
        texts, first = {}, {}
        for text, place in self.labels(name):
            if place is not None:
                texts.setdefault(place, set()).add(text)
                if text.endswith("!"):
                    classes.join(region[place], first.setdefault(text, region[place]))
        places = {}
        for place in kinds:
            places.setdefault(classes.top(region[place]), set()).add(place)
        nodes = [Node(found, None, self.measure(found, kinds)) for found in places.values()]
        for node in nodes:
            names = {text for place in node.places for text in texts.get(place, ())}
            node.names = sorted(names or {self.generated(node, kinds)}, key=name_key)
        return sorted(nodes, key=lambda node: node.least)

    def word(self, kind):
        return self.tech.types[kind][1]["name"]

    def generated(self, node, kinds):
        return "%s_%s_%s#" % (self.word(kinds[node.least]), written(node.least[2]), written(node.least[1]))

    def fets(self, name):
        return self.once("fets", name, self.own_fets)

    def own_fets(self, name):
        kinds, found, seen = self.own(name), [], set()
        node_of = {place: node for node in self.nodes(name) for place in node.places}
        of_kind = {kind: (number, terminals) for number, (kind, terminals, _) in enumerate(self.tech.fets)}
        for least in sorted(place for place in kinds if kinds[place] in of_kind):
            if least in seen:
                continue
            places, todo = set(), [least]
            while todo:
                place = todo.pop()
                if place not in places and kinds.get(place) == kinds[least]:
                    places.add(place)
                    todo += beside(place)
            seen |= places
            number, terminals = of_kind[kinds[least]]
            fet = Fet(number, places)
            fet.gate, lengths = node_of[least], {}
            for other in (other for place in places for other in beside(place) if other not in places):
                fet.perimeter += 1
                if kinds.get(other) in terminals:
                    lengths[node_of[other].least] = lengths.get(node_of[other].least, 0) + 1
            fet.terminals = [(node_of[place], length) for place, length in sorted(lengths.items())]
            found.append(fet)
        return found

    # ---- groups of members
    def elements(self, name):
        """The elements of a cell's uses: the name, the child, and where a place of the child goes."""
        for use in self.layouts.cell(name).uses:
            grid = self.library.cells[name].uses[use.name][2]
            for number, step in enumerate(use.steps()):
                word = use.name
                if grid:
                    n, m = number % use.grid[0], number // use.grid[0]
                    word += "[%d,%d]" % (grid[0] + (n if grid[0] <= grid[1] else -n), grid[3] + (m if grid[3] <= grid[4] else -m))
                yield word, use.child.name, lambda place, use=use, step=step: use.place(step, place)

    def members(self, name):
        """The own nodes, and the groups of each element's cell where it stands: names, places and measures."""
        found = [(node.names[0], node.places, node.measure) for node in self.nodes(name)]
        for word, child, move in self.elements(name):
            found += [(word + "/" + group.names[0], {move(place) for place in group.places}, group.measure) for group in self.groups(child)]
        return found

    def groups(self, name):
        """The groups of a cell by the order of their names; the names of a group are those of its members."""
        return self.once("groups", name, self.all_groups)

    def all_groups(self, name):
        kinds, classes, over = self.flat(name), Classes(), {}
        members = self.members(name)
        for number, (_, places, _) in enumerate(members):
            for place in places:
                classes.join(number, over.setdefault(place, number))
        for place in kinds:
            for other in self.linked(place, kinds):
                classes.join(over[place], over[other])
        of_top = {}
        for number in range(len(members)):
            of_top.setdefault(classes.top(number), []).append(members[number])
        groups = []
        for found in of_top.values():
            places = set().union(*(places for _, places, _ in found))
            group = Node(places, sorted((word for word, _, _ in found), key=name_key), self.measure(places, kinds))
            group.change = [whole - sum(parts) for whole, *parts in zip(group.measure, *(measure for _, _, measure in found))]
            groups.append(group)
        return sorted(groups, key=lambda group: name_key(group.names[0]))

    def merges(self, name):
        """The single merges: two paths and what they add."""
        for group in self.groups(name):
            first, others = group.names[0], group.names[1:]
            if not others and any(group.change):
                others = [first]
            for number, other in enumerate(others):
                yield first, other, group.change if number == 0 else [0] * len(group.change)

    def merge_lines(self, name):
        """Merges that stand one behind the other are one line where they go along an array."""
        grids = {word: use[2] for word, use in self.library.cells[name].uses.items()}
        rows = []
        for first, other, change in self.merges(name):
            word, slash, rest = other.partition("/")
            use, _, index = word.partition("[")
            is_element = slash and index and grids.get(use)
            i, j = map(int, index[:-1].split(",")) if is_element else (None, None)
            row = (first, use, j, rest, change)
            if is_element and rows and rows[-1][0] == row and rows[-1][2] + 1 == i:
                rows[-1][2] = i
            else:
                rows.append([row if is_element else None, i, i, (first, other, change)])
        for row, low, high, (first, other, change) in rows:
            if row and low < high:
                other = "%s[%d:%d,%d]/%s" % (row[1], low, high, row[2], row[3])
            yield 'merge "%s" "%s" %s' % (first, other, " ".join(map(str, change)))

    # ---- texts
    def header(self, version):
        name = self.tech.name
        classes = " ".join(["resistclasses"] + self.said.values)
        return ["tech " + name, "timestamp 0", "version %d" % version, "style " + name, "scale 1 1 1", classes]

    def node_text(self, names, measure, point, word):
        yield 'node "%s" 0 %d %d %d %s' % (names[0], measure[0], point[2], point[1], " ".join([word] + list(map(str, measure[1:]))))
        for other in names[1:]:
            yield 'equiv "%s" "%s"' % (names[0], other)

    def fet_text(self, fet, point, gate, terminals):
        _, y, x = point
        words = ["fet", self.tech.fets[fet.kind][2], x, y, x + 1, y + 1, len(fet.places), fet.perimeter]
        words += ['"%s"' % self.said.substrates[fet.kind], '"%s"' % gate, fet.perimeter - sum(length for _, length in terminals), 0]
        for name, length in terminals:
            words += ['"%s"' % name, length, 0]
        return " ".join(map(str, words))

    def record_lines(self, name):
        """The circuit file of a cell."""
        lines, own = self.header(2), self.own(name)
        for word, (child, six, grid) in self.library.cells[name].uses.items():
            array = "[%d:%d:%d][%d:%d:%d]" % grid if grid else ""
            lines.append("use %s %s%s %d %d %d %d %d %d" % ((child, word, array) + six))
        for node in self.nodes(name):
            lines += self.node_text(node.names, node.measure, node.least, self.word(own[node.least]))
        for fet in self.fets(name):
            lines.append(self.fet_text(fet, fet.least, fet.gate.names[0], [(node.names[0], length) for node, length in fet.terminals]))
        assert node_lines(self.tech, self.library.cells[name]) == [line for line in lines if line.startswith("node")], name
        return lines + list(self.merge_lines(name))

    # ---- flat circuits
    def all_elements(self, name, path="", move=lambda place: place):
        """Each element at and below a cell, itself first: its path, its cell, and where its places go."""
        yield path, name, move
        for word, child, inner in self.elements(name):
            yield from self.all_elements(child, path + word + "/", lambda place, inner=inner, move=move: move(inner(place)))

    def circuit(self, name):
        return self.once("circuit", name, self.flat_circuit)

    def flat_circuit(self, name):
        """The nodes of the flat layout in name order, each with its names, measure, point and word, and the transistors by these nodes."""
        kinds, classes, named, first, carriers = self.flat(name), Classes(), {}, {}, {}
        region, fets = self.regions(kinds), []
        for path, cell, move in self.all_elements(name):
            for node in self.nodes(cell):
                top = region[move(node.least)]
                for place in node.places:
                    classes.join(region[move(place)], top)
                for word in node.names:
                    full = word if word.endswith("!") else path + word
                    classes.join(top, first.setdefault(full, top))
                    named.setdefault(full, top)
                    carriers.setdefault(full, (move(node.least), self.word(self.own(cell)[node.least])))
            fets += [(fet, move) for fet in self.fets(cell)]
        places, names = {}, {}
        for place, least in region.items():
            places.setdefault(classes.top(least), set()).add(place)
        for full, top in named.items():
            names.setdefault(classes.top(top), []).append(full)
        nodes = {top: (sorted(found, key=name_key), self.measure(places[top], kinds)) for top, found in names.items()}
        found = [(words, measure) + carriers[words[0]] for words, measure in sorted(nodes.values(), key=lambda node: name_key(node[0][0]))]
        name_of = lambda place: nodes[classes.top(region[place])][0][0]
        return found, [self.flat_fet(fet, move, name_of) for fet, move in fets]

    def flat_fet(self, fet, move, name_of):
        lengths = {}
        for node, length in fet.terminals:
            name = name_of(move(node.least))
            lengths[name] = lengths.get(name, 0) + length
        return fet, move(fet.least), name_of(move(fet.least)), sorted(lengths.items(), key=lambda pair: name_key(pair[0]))

    def flat_lines(self, name):
        """The flat file of a cell."""
        nodes, fets = self.circuit(name)
        lines = self.header(1)
        for names, measure, point, word in nodes:
            lines += self.node_text(names, measure, point, word)
        return lines + [self.fet_text(*fet) for fet in fets]

    def switches(self, name):
        """The switches of a cell's circuit as lines, and the gates of transistors without a terminal."""
        lines, without = [], []
        for fet, point, gate, terminals in self.circuit(name)[1]:
            pairs = [(one, other) for at, one in enumerate(terminals) for other in terminals[at + 1:]]
            pairs = pairs or list(zip(terminals, terminals))
            without += [gate] * (not pairs)
            for (one, p), (other, q) in pairs:
                width = max(1, (p if len(terminals) == 1 else p + q) // 2)
                length = max(1, len(fet.places) // width)
                letter = self.tech.fets[fet.kind][2][0]
                lines.append("%s %s %s %s %d %d %d %d" % (letter, gate, one, other, length, width, point[2], point[1]))
        return lines, without

    def sim_lines(self, name):
        """The sim file of a cell."""
        nodes = self.circuit(name)[0]
        lines = ["| units: 1 tech: %s format: MIT" % self.tech.name] + self.switches(name)[0]
        lines += ["C %s GND! %d" % (names[0], measure[0] // 1000) for names, measure, _, _ in nodes]
        return lines + ["= %s %s" % (names[0], other) for names, _, _, _ in nodes for other in names[1:]]
