#!/usr/bin/env python3
"""Writes random sim files and vector files, with what `simrun` replies, for the program run_tests.

    random_vectors.py [SEED] >crates/run_tests/data/random_vectors.cases

A step is worked out here path by path, as it is defined: all paths from all roots are listed, and of those that are not blocked
the roots are looked at. Paths that come to no node twice are enough. A second way, by strengths that are raised until nothing
changes, must agree in each step. Nothing of this comes from the program.
"""
import random
import re
import sys

from random_cases import written_cases

BUDGET = 1000
INPUT, WEAK, STRONG = 6, 4, 5
HEADER = "| units: 1 tech: nm format: MIT"
RAILS = {"Vdd!": "1", "GND!": "0"}
CONDUCTS = {"e": "1", "n": "1", "p": "0"}


def words_of(line):
    return [word for word in re.split("[ \t]", line) if word]


class Network:
    """Nodes by number, with their names, sizes and states, and the switches between them."""

    def __init__(self, lines):
        self.node_of, self.switches = {}, []
        words = [words_of(line) for line in lines if words_of(line) and line[0] != "|"]
        fets = [entry for entry in words if len(entry) == 8]
        aliases = [entry[1:] for entry in words if entry[0] == "=" and len(entry) == 3]
        names = [name for entry in fets for name in entry[1:4]]
        names += [entry[1] for entry in words if entry[0] == "C" and len(entry) == 4]
        names += [name for pair in aliases for name in pair]
        class_of = {name: {name} for name in names}
        for one, other in aliases:
            joined = class_of[one] | class_of[other]
            class_of.update((name, joined) for name in joined)
        rail_states = []
        for name in names:
            if name not in self.node_of:
                self.node_of.update((other, len(rail_states)) for other in names if other in class_of[name])
                rail_states.append({RAILS[other] for other in class_of[name] & set(RAILS)})
        self.nodes = range(len(rail_states))
        self.sizes = [1 for _ in self.nodes]
        self.inputs = [bool(found) for found in rail_states]
        self.rails = list(self.inputs)
        self.states = ["".join(found) if len(found) == 1 else "X" for found in rail_states]
        for letter, gate, source, drain in (entry[:4] for entry in fets):
            self.switches.append((letter, self.node_of[gate], self.node_of[source], self.node_of[drain]))

    def root_strength(self, node):
        return INPUT if self.inputs[node] else self.sizes[node]

    def conducting(self):
        """The switches that are closed or unknown: their ends, their strength, and whether they are closed."""
        for letter, gate, left, right in self.switches:
            state = self.states[gate]
            is_closed = letter == "d" or state == CONDUCTS[letter]
            if is_closed or state == "X":
                yield left, right, WEAK if letter == "d" else STRONG, is_closed

    def ways(self):
        """From each node the other ends of its conducting switches, with strengths, and whether they are closed."""
        ways = [[] for _ in self.nodes]
        for left, right, strength, is_closed in self.conducting():
            ways[left].append((right, strength, is_closed))
            ways[right].append((left, strength, is_closed))
        return ways

    # ---- the definition
    def paths(self):
        """All rooted paths that come to no node twice: the nodes, the strengths up to each of them, and whether the path is definite."""
        ways = self.ways()
        found = [([node], [self.root_strength(node)], True) for node in self.nodes]
        for nodes, strengths, is_definite in found:
            for node, strength, is_closed in ways[nodes[-1]]:
                if node not in nodes:
                    found.append((nodes + [node], strengths + [min(strengths[-1], strength)], is_definite and is_closed))
        return found

    def steady_by_paths(self):
        paths = self.paths()
        strongest = [0 for _ in self.nodes]
        for nodes, strengths, is_definite in paths:
            if is_definite:
                strongest[nodes[-1]] = max(strongest[nodes[-1]], strengths[-1])
        roots = [set() for _ in self.nodes]
        for nodes, strengths, _ in paths:
            if all(strength >= strongest[node] for node, strength in zip(nodes, strengths)):
                roots[nodes[-1]].add(self.states[nodes[0]])
        return [states.pop() if len(states) == 1 else "X" for states in roots]

    # ---- the second way
    def raised(self, strengths, ways, is_way, least):
        """The strengths of all nodes, if each goes on along these ways wherever it is no less than the least there."""
        todo = [node for node in self.nodes if strengths[node]]
        while todo:
            node = todo.pop()
            for other, strength, is_closed in ways[node]:
                strength = min(strength, strengths[node])
                if is_way(is_closed) and strength >= least[other] and strength > strengths[other]:
                    strengths[other] = strength
                    todo.append(other)
        return strengths

    def steady_by_strengths(self):
        ways = self.ways()
        roots = [self.root_strength(node) for node in self.nodes]
        strongest = self.raised(list(roots), ways, lambda is_closed: is_closed, [0 for _ in self.nodes])
        reached = {}
        for state in "01X":
            starts = [roots[node] if self.states[node] == state and roots[node] == strongest[node] else 0 for node in self.nodes]
            reached[state] = self.raised(starts, ways, lambda is_closed: True, strongest)
        states = ["".join(state for state in "01X" if reached[state][node]) for node in self.nodes]
        return [state if len(state) == 1 else "X" for state in states]

    # ---- steps and phases
    def step(self):
        """The states after a step."""
        steady = self.steady_by_paths()
        assert steady == self.steady_by_strengths(), (self.switches, self.states)
        return [old if is_input else new for old, new, is_input in zip(self.states, steady, self.inputs)]

    def phase(self):
        """Runs a phase. The answer is the number of steps after which it settled, or None."""
        passed, place = [], {}
        while len(passed) <= BUDGET:
            now = tuple(self.states)
            if now in place:
                first = place[now]
                return self.forced(list(passed[first + (BUDGET - first) % (len(passed) - first)]))
            place[now] = len(passed)
            passed.append(now)
            after = self.step()
            if after == self.states:
                return len(passed) - 1
            self.states = after
        return self.forced(list(passed[BUDGET]))

    def forced(self, states):
        """From the last states of a phase that did not settle: what a step would change becomes X and stays so, until nothing more would change."""
        self.states, forced = states, set()
        while True:
            after = self.step()
            taken = {node for node in self.nodes if after[node] != self.states[node]} - forced
            if not taken:
                return None
            forced |= taken
            self.states = ["X" if node in taken else state for node, state in enumerate(self.states)]


class Refused(Exception):
    """A vector file is refused with this text."""


def read_vectors(net, lines):
    """The words of each line that is not read over. The whole file is refused for its first faulty line."""
    read = []
    for number, line in enumerate(lines, 1):
        words = words_of(line)
        if not words or line[0] == "#":
            continue
        if not is_of_form(words):
            raise Refused("E21 vector %d" % number)
        names = words[1:] if words[0] == "show" else words[1:2]
        for name in names:
            if words[0] != "show" and (name in RAILS or name in net.node_of and net.rails[net.node_of[name]]):
                raise Refused("E21 vector %d" % number)
            if name not in net.node_of:
                raise Refused("E20 no node %d %s" % (number, name))
        read.append(words)
    return read


def is_of_form(words):
    last_of = {"set": ["0", "1", "X"], "size": ["1", "2", "3"]}
    if words[0] in last_of:
        return len(words) == 3 and words[2] in last_of[words[0]]
    return len(words) > 1 if words[0] == "show" else (words[0], len(words)) in [("free", 2), ("phase", 1)]


def vector_lines(net, lines):
    """What the vectors reply on the network."""
    report, phases = [], 0
    for verb, *words in read_vectors(net, lines):
        node = net.node_of[words[0]] if words else None
        if verb == "set":
            net.inputs[node], net.states[node] = True, words[1]
        elif verb == "free":
            net.inputs[node] = False
        elif verb == "size":
            net.sizes[node] = int(words[1])
        elif verb == "phase":
            phases += 1
            steps = net.phase()
            report.append("phase %d unsettled" % phases if steps is None else "phase %d settled %d" % (phases, steps))
        else:
            report += ["%s=%s" % (name, net.states[net.node_of[name]]) for name in words]
    return report


def answer(sim, vectors):
    """What `simrun` reports as the first line of a script, and the exit status."""
    try:
        report = vector_lines(Network(sim[1:]), vectors)
    except Refused as refused:
        return ["line 1: %s" % refused], 1
    return report, int(any(line.endswith(" unsettled") for line in report))


# ---- random sim files
PLAIN_NAMES = ["a", "b", "c", "in", "out", "e", "C", "clk!", "q/w", "r[0,1]/t", "poly_n2_4#", "=", "Vdd", '"q"', "#z", "|y"]


def any_switch(dice, gates, nodes):
    gate, source, drain = dice.choice(gates), dice.choice(nodes), dice.choice(nodes)
    while source == drain and dice.random() < 0.8:
        drain = dice.choice(nodes)
    return [(dice.choice("eennpppd"), gate, source, drain)]


def inverter(dice, gates, nodes):
    """A load and a switch to ground, or a pair of switches, at the node that is turned over."""
    gate, out = dice.choice(gates), dice.choice([node for node in nodes if node not in RAILS])
    upper = dice.choice([("d", out, "Vdd!", out), ("p", gate, "Vdd!", out)])
    return [upper, (dice.choice("en"), gate, "GND!", out)]


def ring(dice, gates, nodes):
    """Inverters each of which turns over the one before it."""
    plain = [node for node in nodes if node not in RAILS]
    few = dice.sample(plain, min(len(plain), dice.choice([1, 2, 3, 3, 4])))
    return [fet for gate, out in zip(few, few[1:] + few[:1]) for fet in (("d", out, "Vdd!", out), ("e", gate, "GND!", out))]


def random_fets(dice, nodes, has_rails):
    """At most ten switches. Some nodes are gates more often than others, and are joined with nothing, so that they can be driven."""
    kinds, fets, most = [any_switch], [], dice.choice([0, 1, 3, 4, 5, 6, 7, 8, 9, 10, 10, 10, 10])
    drivers = dice.sample(nodes[:-2], dice.randint(0, len(nodes[:-2]) // 2))
    others = [node for node in nodes if node not in drivers]
    if has_rails and len(others) > len(RAILS):
        kinds += [inverter, inverter] * (dice.random() < 0.7) + [ring] * (dice.random() < 0.2)
    while len(fets) < most:
        fets += dice.choice(kinds)(dice, nodes + drivers * 3, others)
    return fets[:10]


def random_sim(dice):
    """The lines of a sim file: 2 to 8 nodes, if all of them stand in it."""
    has_rails = dice.random() < 0.8
    count = dice.choice([2, 3, 4, 5, 6, 6, 7, 7, 8, 8])
    nodes = dice.sample(PLAIN_NAMES, count - 2) + list(RAILS) if has_rails else dice.sample(PLAIN_NAMES, count)
    lines = [" ".join(fet + tuple(str(dice.choice([1, 2, 2, 4, -3])) for _ in range(4))) for fet in random_fets(dice, nodes, has_rails)]
    lines += ["C %s GND! %d" % (node, dice.randint(0, 30)) for node in nodes if dice.random() < 0.7]
    others = [name + dice.choice("xyz") for name in dice.sample(PLAIN_NAMES, 3)]
    for other in others[:dice.choice([0, 0, 1, 2, 3])]:
        lines.append("= %s %s" % tuple(dice.sample([dice.choice(nodes), other], 2)))
        nodes.append(other)
    if dice.random() < 0.06:
        lines.append("= %s %s" % tuple(dice.sample(nodes, 2)))
    if dice.random() < 0.3:
        dice.shuffle(lines)
    if dice.random() < 0.1:
        lines.insert(dice.randint(0, len(lines)), dice.choice(["", "| more", "|"]))
    return [HEADER] + lines


# ---- random vectors
def changes(dice, free, drivers, is_first):
    """Lines that change the network before a phase, and some behind it: what was set there is most often freed again."""
    before, behind = [], []
    for name in drivers:
        if dice.random() < (0.9 if is_first else 0.5):
            before.append("set %s %s" % (name, dice.choice("000011111X")))
            behind += ["free " + name] * (dice.random() < 0.1)
    for name in dice.sample(free, min(len(free), dice.choice([0, 0, 1, 1, 2]))):
        before.append("set %s %s" % (name, dice.choice("000011111X")))
        behind += ["free " + name] * (dice.random() < 0.8)
    if free and dice.random() < 0.4:
        before.append("size %s %s" % (dice.choice(free), dice.choice("1233")))
    if free and dice.random() < 0.2:
        before.append("free " + dice.choice(free))
    dice.shuffle(before)
    return before, behind


def random_vectors(dice, net):
    """Some rounds of lines that change the network, each with phases and with what they leave."""
    known = list(net.node_of)
    free = [name for name in known if not net.rails[net.node_of[name]]]
    gates, others = {fet[1] for fet in net.switches}, {node for fet in net.switches for node in fet[2:]}
    drivers = [name for name in free if net.node_of[name] in gates - others]
    lines = []
    for number in range(dice.randint(1, 5)):
        before, behind = changes(dice, free, drivers, number == 0)
        lines += before + ["phase"] * dice.choice([0, 1, 1, 1, 1, 1, 1, 2])
        if behind and dice.random() < 0.7:
            lines += behind + ["phase"]
        lines += ["show " + " ".join(dice.sample(known, dice.randint(1, min(len(known), 6))))] if known else []
    if dice.random() < 0.1:
        lines.insert(dice.randint(0, len(lines)), dice.choice(["", "# set a 7", "#", "   "]))
    if dice.random() < 0.15:
        lines.insert(dice.randint(0, len(lines)), faulty_line(dice, known or ["none"], free))
    return lines


def faulty_line(dice, known, free):
    name, rail = dice.choice(free or known), dice.choice([name for name in known if name not in free] + list(RAILS))
    no_form = ["set %s 2" % name, "set %s x" % name, "set %s" % name, "set %s 0 1" % name, "size %s 0" % name, "size %s 4" % name]
    no_form += ["size %s 02" % name, "free", "free %s %s" % (name, name), "show", "phase 1", "phases", "Set %s 1" % name, "set zz 2", "="]
    of_rail = ["set %s 1" % rail, "free %s" % rail, "size %s 2" % rail, "set %s X" % rail]
    no_node = ["set zz 1", "free zz", "size zz 3", "show zz", "show %s zz %s yy" % (name, rail), "show %s %sq" % (rail, name)]
    return dice.choice(dice.choice([no_form, of_rail, no_node]))


def vector_cases(dice, count):
    for number in range(1, count + 1):
        sim = random_sim(dice)
        vectors = random_vectors(dice, Network(sim[1:]))
        report, status = answer(sim, vectors)
        yield "vectors %d" % number, given(n=sim, v=vectors), ["simrun n v"], report, status


def given(n, **vectors):
    return [(name + ending, "".join(line + "\n" for line in lines))
            for ending, files in ((".sim", {"n": n}), (".vec", vectors)) for name, lines in files.items()]


def chain_case():
    """A chain of switches each of which opens the way for the next: with an end at 1, one more node comes to be 1 in each step."""
    sim = [HEADER] + ["e c%d Vdd! c%d 1 1 0 0" % (k, k + 1) for k in range(BUDGET + 1)]
    ends = "show c%d c%d" % (BUDGET, BUDGET + 1)
    settled = ["phase 1 settled %d" % BUDGET, "c%d=1" % BUDGET, "c%d=1" % (BUDGET + 1)]
    unsettled = ["phase 1 unsettled", "c%d=1" % BUDGET, "c%d=X" % (BUDGET + 1), "phase 2 settled 1"] + settled[1:]
    files = given(n=sim, short=["set c1 1", "phase", ends], long=["set c0 1", "phase", ends, "phase", ends])
    script = ["simrun n short", "simrun n long"]
    return "a chain of as many steps as a phase has at most, and a longer one", files, script, settled + unsettled, 1


def main():
    seed = int(sys.argv[1]) if len(sys.argv) > 1 else 20
    print("# Random cases, written by bench/random_vectors.py. Their answers were worked out there, apart from the program.")
    written_cases(vector_cases(random.Random(seed), 240))
    written_cases([chain_case()])


if __name__ == "__main__":
    main()
