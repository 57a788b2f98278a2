"""What a whole script reports and stores, worked out square by square and path by path by the models of the other scripts of this folder.

Nothing of this comes from the program. Refused lines are known for edits and for design rules, CIF texts and vectors; a script of the examples has no others.
"""
import random_cif
from plain_circuits import Circuits
from random_cases import answer, read_technology
from random_edits import Library, Refused, erase_column, paint_column, strips
from random_rules import read_rules, squares_of
from random_squares import below, reply
from random_vectors import Network, Refused as BadVectors, read_vectors, vector_lines

TOLD = ("line ", "offending ", "violation ")


class Strengths(Network):
    """A network whose steps are worked out by strengths alone, since a large one has too many paths. A stuck node is an input from the start."""

    def __init__(self, lines, stuck=None):
        super().__init__(lines)
        self.stuck = None if stuck is None else self.node_of[stuck[0]]
        if stuck:
            self.inputs[self.stuck], self.states[self.stuck] = True, stuck[1]

    def step(self):
        steady = self.steady_by_strengths()
        return [old if is_input else new for old, new, is_input in zip(self.states, steady, self.inputs)]


def seen(net, lines):
    """What the `show` lines of vectors tell: the line, the value, and whether a phase stands before it and the last one settled."""
    found, settled = [], False
    numbers = [number for number, line in enumerate(lines, 1) if line.split() and not line.startswith("#")]
    for number, (verb, *words) in zip(numbers, read_vectors(net, lines)):
        node = net.node_of[words[0]] if words else None
        if verb == "phase":
            settled = net.phase() is not None
        elif verb == "show":
            found += [(number, net.states[net.node_of[word]], settled) for word in words]
        elif node == net.stuck:
            continue
        elif verb == "set":
            net.inputs[node], net.states[node] = True, words[1]
        elif verb == "free":
            net.inputs[node] = False
        else:
            net.sizes[node] = int(words[1])
    return found


# ---- design rules over many squares
def in_boxes(squares, d):
    """The squares that lie in a box of d by d all of which are of these: by the greatest box that ends at each."""
    side = {}
    for x, y in sorted(squares):
        side[x, y] = 1 + min(side.get(place, 0) for place in ((x - 1, y), (x, y - 1), (x - 1, y - 1)))
    return {(x - i, y - j) for (x, y), least in side.items() if least >= d for i in range(d) for j in range(d)}


def violating(kind, squares, others, d):
    if kind == "width":
        return squares - in_boxes(squares, d)
    if kind == "separation":
        return squares & {(x + i, y + j) for x, y in others for i in range(-d, d + 1) for j in range(-d, d + 1)}
    if not squares:
        return set()
    xs, ys = [x for x, _ in squares], [y for _, y in squares]
    free = {(x, y) for x in range(min(xs) - d, max(xs) + d + 1) for y in range(min(ys) - d, max(ys) + d + 1)} - squares
    return free - in_boxes(free, d)


def violations(layouts, cell, rules):
    """The lines of a cell's strips, rule by rule."""
    whole, found = layouts.whole(cell), []
    for number, (kind, lists, d) in enumerate(rules, 1):
        squares, plane = squares_of(layouts, whole, lists[0])
        others = squares_of(layouts, whole, lists[1])[0] if kind == "separation" else set()
        bad = strips(violating(kind, squares, others, d))
        found += ["violation %s %d %s %d %d %d %d" % ((cell.name, number, layouts.tech.planes[plane]) + strip) for strip in bad]
    return found + ["drc %s: %d rules %d strips" % (cell.name, len(rules), len(found))]


class Run:
    """A run of a script over files, each a list of lines."""

    def __init__(self, files):
        self.files, self.report, self.stored = dict(files), [], []
        self.text = self.library = self.circuits = None
        self.clean, self.done, self.undone = set(), [], []

    def run(self, script):
        for number, line in enumerate(script, 1):
            words = line.split()
            if words and not line.startswith("#"):
                try:
                    reply = getattr(self, "do_" + words[0])(number, *words[1:])
                    self.report += ["ok"] if reply is None else reply
                except (Refused, BadVectors) as refused:
                    self.report.append("line %d: %s" % (number, refused))
        told = any(line.startswith(TOLD) or line.startswith("phase") and line.endswith("unsettled") for line in self.report)
        return self.report, self.stored, int(told)

    def store(self, name, lines):
        self.files[name] = lines
        self.stored.append((name, lines))

    # ---- technologies, files and edits
    def do_tech(self, number, name):
        self.text = "".join(line + "\n" for line in self.files[name + ".tech"])
        tech, fault = read_technology(self.text)
        assert fault is None, fault
        self.library = Library(tech)
        return [answer(name + ".tech", self.text)[0]]

    def do_load(self, number, name):
        count = self.library.load(name, {file: lines for file, lines in self.files.items() if file.endswith(".mag")})
        self.circuits, self.done, self.undone = None, [], []
        return ["load %s: %d cells" % (name, count)]

    def do_save(self, number, name):
        self.store(name + ".mag", self.library.save(name).splitlines())
        return ["save " + name]

    def do_new(self, number, name):
        self.library.new(name)
        self.circuits = None

    def do_edit(self, number, name):
        self.library.edit(name)

    def changed(self, name):
        """The cell and those above it are dirty."""
        self.clean = {other for other in self.clean if name not in self.library.below(other)}
        self.circuits = None

    def edited(self, do, *words):
        name = self.library.current
        before = name and self.library.cells[name].copy()
        do(*words)
        self.done.append((name, before, self.library.cells[name].copy()))
        self.undone = []
        self.changed(name)

    def do_paint(self, number, layer, *area):
        self.edited(self.library.draw, paint_column, layer, tuple(map(int, area)))

    def do_erase(self, number, layer, *area):
        self.edited(self.library.draw, erase_column, layer, tuple(map(int, area)))

    def do_place(self, number, child, name, *six):
        self.edited(self.library.place, child, name, list(map(int, six)))

    def do_array(self, number, name, *grid):
        self.edited(self.library.array, name, list(map(int, grid)))

    def do_move(self, number, name, dx, dy):
        self.edited(self.library.move, name, int(dx), int(dy))

    def do_delete(self, number, name):
        self.edited(self.library.delete, name)

    def do_label(self, number, layer, xbot, ybot, xtop, ytop, position, *text):
        area = tuple(map(int, (xbot, ybot, xtop, ytop)))
        self.edited(self.library.label, layer, area, int(position), " ".join(text))

    def do_unlabel(self, number, *text):
        self.edited(self.library.unlabel, " ".join(text))

    def do_undo(self, number):
        self.turn(self.done, self.undone, "E27 nothing to undo", 1)

    def do_redo(self, number):
        self.turn(self.undone, self.done, "E28 nothing to redo", 2)

    def turn(self, taken, given, refusal, which):
        if not taken:
            raise Refused(refusal)
        edit = taken.pop()
        given.append(edit)
        self.library.cells[edit[0]] = edit[which].copy()
        self.changed(edit[0])

    # ---- looks at cells
    def at(self):
        if self.circuits is None:
            self.circuits = Circuits(self.library, self.text)
        return self.circuits

    def do_nodes(self, number, name):
        return self.library.nodes(name)

    def do_squares(self, number, name):
        layouts = self.at().layouts
        return reply(layouts, layouts.cell(name))

    def do_drc(self, number, name, file):
        rules, fault = read_rules(self.library.tech, self.files[file + ".drc"])
        if fault:
            raise Refused("E29 %s.drc %d %s" % (file, rules, fault.code))
        layouts = self.at().layouts
        return violations(layouts, layouts.cell(name), rules)

    def do_cif(self, number, name):
        layouts = self.at().layouts
        lines, count = random_cif.cell_text(layouts, layouts.cell(name))
        self.store(name + ".cif", lines)
        return ["cif %s: %d symbols" % (name, count)]

    def do_cifstat(self, number, name):
        return random_cif.stat(name, number, "".join(line + "\n" for line in self.files[name + ".cif"]))

    # ---- circuits
    def extract(self, name):
        """Stores the circuit files of the dirty cells at and below a cell, children first, and tells the labels that name nothing."""
        circuits = self.at()
        assert self.do_squares(0, name) == ["clean " + name], name
        dirty = [cell.name for cell in below(circuits.layouts.cell(name)) if cell.name not in self.clean]
        for other in dirty:
            self.store(other + ".ext", circuits.record_lines(other))
        self.clean |= set(dirty)
        self.report += ["unattached %s %s" % (other, text) for other in dirty for text, place in circuits.labels(other) if place is None]
        return len(dirty)

    def do_extract(self, number, name):
        return ["extract %s: %d cells" % (name, self.extract(name))]

    def do_flat(self, number, name):
        self.extract(name)
        nodes, fets = self.at().circuit(name)
        self.store(name + ".flat.ext", self.at().flat_lines(name))
        return ["flat %s: %d nodes %d transistors" % (name, len(nodes), len(fets))]

    def do_sim(self, number, name):
        self.extract(name)
        return self.flat_switches(name)

    def flat_switches(self, name):
        switches, without = self.at().switches(name)
        self.store(name + ".sim", self.at().sim_lines(name))
        return ["no terminal " + gate for gate in without] + ["sim %s: %d nodes %d switches" % (name, len(self.at().circuit(name)[0]), len(switches))]

    def do_vectors(self, number, name, file):
        self.extract(name)
        return vector_lines(Strengths(self.at().sim_lines(name)[1:]), self.files[file + ".vec"])

    def do_ext2sim(self, number, name):
        """Circuit files are those of the cells as they are, of which the flat circuit is known."""
        circuits = self.at()
        for cell in below(circuits.layouts.cell(name)):
            assert self.files[cell.name + ".ext"] == circuits.record_lines(cell.name), cell.name
        return self.flat_switches(name)

    def do_simrun(self, number, name, file):
        return vector_lines(Strengths(self.files[name + ".sim"][1:]), self.files[file + ".vec"])

    def do_grade(self, number, name, file):
        self.extract(name)
        sim, vectors = self.at().sim_lines(name)[1:], self.files[file + ".vec"]
        good, lines, detected = seen(Strengths(sim), vectors), [], 0
        names = [names[0] for names, _, _, _ in self.at().circuit(name)[0] if not {"Vdd!", "GND!"} & set(names)]
        for node, value in ((node, value) for node in names for value in "01"):
            bad = seen(Strengths(sim, (node, value)), vectors)
            told = [line for (line, one, calm), (_, other, still) in zip(good, bad) if calm and still and {one, other} == {"0", "1"}]
            lines.append("fault %s %s %s" % (node, value, "detected %d" % told[0] if told else "undetected"))
            detected += bool(told)
        return lines + ["grade %s: %d faults %d detected" % (name, len(lines), detected)]

    # ---- stacks
    def do_generate(self, number, n):
        library, n = self.library, int(n)
        library.new("gtile")
        library.draw(paint_column, "poly", (0, 2, 6, 4))
        library.draw(paint_column, "diff", (2, 0, 4, 6))
        library.label("poly", (0, 2, 0, 4), 7, "w")
        library.label("diff", (2, 0, 4, 0), 5, "b")
        for cell, child, use, grid in ("grow", "gtile", "t", [0, n - 1, 6, 0, 0, 0]), ("gen", "grow", "r", [0, 0, 0, 0, n - 1, 6]):
            library.new(cell)
            library.place(child, use, [1, 0, 0, 0, 1, 0])
            library.array(use, grid)
        self.circuits, self.done, self.undone = None, [], []
        self.extract("gen")
        nodes, fets = self.at().circuit("gen")
        net = Strengths(self.at().sim_lines("gen")[1:])
        sets = ["set r[0,%d]/t[0,0]/w 1" % j for j in range(n)] + ["set r[0,0]/t[%d,0]/b 0" % i for i in range(n)]
        settled = vector_lines(net, sets + ["phase"])[0]
        assert settled.startswith("phase 1 settled"), settled
        counts = [library.elements("gen"), len(nodes), len(fets), sum(sum(node[1][1::2]) for node in nodes), sum(sum(node[1][2::2]) for node in nodes)]
        counts += [int(settled.split()[3]), net.states.count("0"), net.states.count("1")]
        return ["generate %d: cells 3 elements %d nodes %d transistors %d area %d perimeter %d steps %d zeros %d ones %d" % (n, *counts)]


def run(files, script):
    """The report of a script over files, the stores that it makes, and the status; all texts are lists of lines."""
    return Run(files).run(script)
