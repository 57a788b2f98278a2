#!/usr/bin/env python3
"""Times `simrun` on circuits that are made from a number, and Icarus Verilog on the same circuits where it is installed.

    bench/simulations.py [--sizes 50000,250000] [--seed 1] [--only NAME] [--program PATH] [--iverilog PATH] [--vvp PATH]

Each circuit is written as a sim file with a vector file, and as a Verilog module of switch primitives that sets the same inputs in
the same order. For each it prints seconds and peak megabytes, the power of n by which time grew, the same of `vvp` alone, which reads
what `iverilog` compiled before, the seconds of `vvp` over ours, and how many of the shown values were compared, how many of them
differ, and how many of ours are not what the circuit is to compute. Values are compared where both are 0 or 1.
"""
import argparse
import random
import shutil
import subprocess
import sys
import tempfile
from pathlib import Path

from bench import PROGRAM, growth, timed

HEADER = "| units: 1 tech: bench format: MIT"
CHAIN, BITS, STAGES = 500, 32, 64
IN_VERILOG = {"Vdd!": "vdd", "GND!": "gnd"}


class Unit:
    """Switches between named nodes. Each passes what its source has on to its drain, which is all that Verilog's switches do."""

    def __init__(self, clocks=()):
        self.clocks, self.inputs, self.nodes, self.outputs = list(clocks), [], [], []
        self.switches, self.primitives = [], []

    def input(self, name):
        self.inputs.append(name)
        return name

    def node(self, name):
        self.nodes.append(name)
        return name

    def switch(self, kind, gate, source, drain):
        """A switch of kind n or p."""
        self.switches.append((kind, gate, source, drain))
        self.primitives.append(f"{kind}mos ({drain}, {IN_VERILOG.get(source, source)}, {gate});")

    def load(self, node):
        """What draws a node to 1 where nothing stronger draws it to 0."""
        self.switches.append(("d", node, "Vdd!", node))
        self.primitives.append(f"pullup ({node});")

    def keeper(self, source, drain):
        """What holds a node where nothing stronger drives it."""
        self.switches.append(("d", source, source, drain))
        self.primitives.append(f"rnmos ({drain}, {source}, vdd);")

    def inverter(self, gate, out):
        self.node(out)
        self.switch("p", gate, "Vdd!", out)
        self.switch("n", gate, "GND!", out)
        return out

    def module(self):
        ports, outputs = self.clocks + self.inputs, ", ".join(self.outputs)
        lines = [f"module unit ({', '.join(ports + self.outputs)});", "supply1 vdd;", "supply0 gnd;"]
        lines += [f"input {', '.join(ports)};", f"output {outputs};", f"wire {', '.join(self.nodes)};"]
        return lines + self.primitives + ["endmodule"]


class Circuit:
    """A number of equal units side by side. Those nodes are named after them that are not common to all."""

    def __init__(self, unit, count):
        self.unit, self.count = unit, count
        self.switches = len(unit.switches) * count

    def sim_text(self):
        lines, common = [HEADER], dict.fromkeys(list(IN_VERILOG) + self.unit.clocks)
        nodes = list(common)
        for k in range(self.count):
            names = {name: f"{name}_{k}" for name in self.unit.inputs + self.unit.nodes}
            nodes += names.values()
            names.update((name, name) for name in common)
            lines += [f"{kind} {names[gate]} {names[source]} {names[drain]} 2 2 0 0" for kind, gate, source, drain in self.unit.switches]
        return "\n".join(lines + [f"C {name} GND! 5" for name in nodes]) + "\n"

    def verilog_text(self, vectors):
        lines = self.unit.module() + ["module bench;"] + [f"reg {name};" for name in self.unit.clocks]
        for k in range(self.count):
            inputs, outputs = [f"{name}_{k}" for name in self.unit.inputs], [f"{name}_{k}" for name in self.unit.outputs]
            lines += [f"reg {', '.join(inputs)};", f"wire {', '.join(outputs)};"]
            lines.append(f"unit u{k} ({', '.join(self.unit.clocks + inputs + outputs)});")
        lines.append("initial begin")
        for verb, *words in vectors:
            if verb == "set":
                lines.append("%s = %s;" % tuple(words))
            elif verb == "phase":
                lines.append("#1;")
            else:
                lines.append('$display("%s=%%b", %s);' % (words[0], words[0]))
        return "\n".join(lines + ["end", "endmodule"]) + "\n"


def vector_text(vectors):
    """The lines of a vector file. What is shown stands here with what is expected of it."""
    return "".join(" ".join(words[:2] if words[0] == "show" else words) + "\n" for words in vectors)


# ---- circuits: each is made with its vectors, of at least as many switches
def circuit_of(unit, switches):
    return Circuit(unit, -(-switches // len(unit.switches)))


def chains(switches, dice):
    """Chains of 500 inverters with loads; at each of 20 phases some of their inputs turn over."""
    unit, vectors = Unit(), []
    before = unit.input("in")
    for stage in range(CHAIN):
        out = unit.node(f"c{stage}")
        unit.load(out)
        unit.switch("n", before, "GND!", out)
        before = out
    unit.outputs.append(before)
    circuit = circuit_of(unit, switches)
    for _ in range(20):
        levels = [dice.choice("01") for _ in range(circuit.count)]
        vectors += [("set", f"in_{k}", level) for k, level in enumerate(levels)] + [("phase",)]
        vectors += [("show", f"{before}_{k}", level) for k, level in enumerate(levels)]
    return circuit, vectors


def turns(switches, dice):
    """The same chains; at each of 300 phases the input of one of them turns over."""
    circuit, _ = chains(switches, dice)
    levels = ["0"] * circuit.count
    vectors = [("set", f"in_{k}", "0") for k in range(circuit.count)] + [("phase",)]
    for _ in range(300):
        k = dice.randrange(circuit.count)
        levels[k] = "1" if levels[k] == "0" else "0"
        vectors += [("set", f"in_{k}", levels[k]), ("phase",), ("show", f"c{CHAIN - 1}_{k}", levels[k])]
    return circuit, vectors


def adders(switches, dice):
    """Ripple-carry adders of 32 bits, with the carry and the sum of a bit in 28 switches; at each of 10 phases all add other numbers."""
    unit, vectors = Unit(), []
    carry = unit.input("carry")
    for bit in range(BITS):
        carry = full_adder(unit, bit, carry)
    unit.outputs.append(carry)
    circuit = circuit_of(unit, switches)
    for _ in range(10):
        shown = []
        for k in range(circuit.count):
            one, other, first = dice.getrandbits(BITS), dice.getrandbits(BITS), dice.getrandbits(1)
            vectors.append(("set", f"carry_{k}", str(first)))
            for name, number in (("a", one), ("b", other)):
                vectors += [("set", f"{name}{bit}_{k}", str(number >> bit & 1)) for bit in range(BITS)]
            shown += [("show", f"s{bit}_{k}", str(one + other + first >> bit & 1)) for bit in range(BITS)]
            shown.append(("show", f"{carry}_{k}", str(one + other + first >> BITS)))
        vectors += [("phase",)] + shown
    return circuit, vectors


def full_adder(unit, bit, carry):
    """The sum of two inputs and a carry. Both its halves have the same switches in the same rows, from power and from ground."""
    one, other, no_carry, no_sum = unit.input(f"a{bit}"), unit.input(f"b{bit}"), unit.node(f"nk{bit}"), unit.node(f"ns{bit}")
    for kind, rail in (("p", "Vdd!"), ("n", "GND!")):
        mid = [unit.node(f"{kind}{number}_{bit}") for number in range(5)]
        rows = [(one, rail, mid[0]), (other, mid[0], no_carry)]
        rows += [(one, rail, mid[1]), (other, rail, mid[1]), (carry, mid[1], no_carry)]
        rows += [(one, rail, mid[2]), (other, rail, mid[2]), (carry, rail, mid[2]), (no_carry, mid[2], no_sum)]
        rows += [(one, rail, mid[3]), (other, mid[3], mid[4]), (carry, mid[4], no_sum)]
        for gate, source, drain in rows:
            unit.switch(kind, gate, source, drain)
    unit.outputs.append(unit.inverter(no_sum, f"s{bit}"))
    return unit.inverter(no_carry, f"k{bit}")


def registers(switches, dice):
    """Shift registers of 64 stages of two latches, each with a keeper; two clocks shift them 80 times, in four phases each."""
    unit, vectors = Unit(["first", "second"]), [("set", "first", "0"), ("set", "second", "0")]
    last = unit.input("data")
    for stage in range(STAGES):
        for clock in unit.clocks:
            last = latch(unit, f"{clock}{stage}", clock, last)
    unit.outputs.append(last)
    circuit, passed = circuit_of(unit, switches), []
    for _ in range(STAGES + 16):
        passed.append([dice.choice("01") for _ in range(circuit.count)])
        vectors += [("set", f"data_{k}", level) for k, level in enumerate(passed[-1])]
        for clock in unit.clocks:
            vectors += [("set", clock, "1"), ("phase",), ("set", clock, "0"), ("phase",)]
        came = passed[-STAGES] if len(passed) >= STAGES else ["X"] * circuit.count
        vectors += [("show", f"{last}_{k}", level) for k, level in enumerate(came)]
    return circuit, vectors


def latch(unit, name, clock, before):
    """A node that is driven while the clock is 1, and two inverters behind it whose output keeps it else."""
    held = unit.node(f"d{name}")
    unit.switch("n", clock, before, held)
    out = unit.inverter(unit.inverter(held, f"n{name}"), f"q{name}")
    unit.keeper(out, held)
    return out


CIRCUITS = {"chains": chains, "turns": turns, "adders": adders, "registers": registers}


# ---- runs
def shown_in(command, script, folder):
    """What a run shows, names and values, and what it refuses or does not settle. A second run, since the timed one keeps nothing."""
    with open(script, "rb") as source:
        done = subprocess.run(command, stdin=source, stdout=subprocess.PIPE, stderr=subprocess.DEVNULL, cwd=folder, check=False)
    lines = done.stdout.decode().split("\n")
    shown = [tuple(line.split("=")) for line in lines if "=" in line]
    return shown, [line for line in lines if line.startswith("line ") or line.endswith(" unsettled")]


def run_program(options, circuit, vectors, folder):
    (folder / "c.sim").write_text(circuit.sim_text())
    (folder / "v.vec").write_text(vector_text(vectors))
    (folder / "run.script").write_text("simrun c v\n")
    run = timed([options.program], folder / "run.script", folder)
    return (run,) + shown_in([options.program], folder / "run.script", folder)


def run_verilog(options, circuit, vectors, folder):
    """The Verilog module is compiled, and then run alone."""
    (folder / "bench.v").write_text(circuit.verilog_text(vectors))
    subprocess.run([options.iverilog, "-s", "bench", "-o", "bench.vvp", "bench.v"], cwd=folder, check=True)
    command = [options.vvp, "-n", "bench.vvp"]
    return timed(command, "/dev/null", folder), shown_in(command, "/dev/null", folder)[0]


def compared(ours, theirs):
    """How many of the shown values are 0 or 1 in both, and how many of those differ."""
    assert [name for name, _ in ours] == [name for name, _ in theirs]
    both = [(one, other) for (_, one), (_, other) in zip(ours, theirs) if one in "01" and other in "01"]
    return len(both), sum(one != other for one, other in both)


def wrong_in(ours, vectors):
    """How many of the shown values are not what is expected."""
    expected = [words[1:] for words in vectors if words[0] == "show"]
    assert [name for name, _ in ours] == [name for name, _ in expected]
    return sum(one != other for one, other in zip(ours, expected))


def table(name, sizes, options):
    """Runs one kind of circuit at each size, and prints a row for each. The answer is how many values are not as they should be."""
    print(f"\n{name}: {CIRCUITS[name].__doc__}")
    heads = f"{'switches':>9} {'s':>8} {'MB':>7} {'growth':>8} {'vvp s':>9} {'vvp MB':>7} {'ratio':>7} {'compared':>9}"
    print(f"{heads} {'differ':>7} {'wrong':>6}")
    before, bad = None, 0
    for size in sizes:
        circuit, vectors = CIRCUITS[name](size, random.Random(options.seed))
        with tempfile.TemporaryDirectory() as folder:
            run, ours, refused = run_program(options, circuit, vectors, Path(folder))
            if run.status != 0 or refused:
                print(f"{circuit.switches:>9} ended with status {run.status} after {run.seconds:.1f} s: {refused[:1]}")
                before, bad = None, bad + 1
                continue
            wrong, differ = wrong_in(ours, vectors), 0
            row = f"{circuit.switches:>9} {run.seconds:>8.2f} {run.megabytes:>7.0f}"
            row += f" {growth(before, (circuit.switches, run)) if before else '':>8}"
            if options.iverilog and options.vvp:
                other, theirs = run_verilog(options, circuit, vectors, Path(folder))
                count, differ = compared(ours, theirs)
                row += f" {other.seconds:>9.2f} {other.megabytes:>7.0f} {other.seconds / run.seconds:>7.1f} {count:>9} {differ:>7}"
            else:
                row += f" {'':>9} {'':>7} {'':>7} {'':>9} {'':>7}"
            print(f"{row} {wrong:>6}", flush=True)
            before, bad = (circuit.switches, run), bad + differ + wrong
    return bad


def main():
    parser = argparse.ArgumentParser(description=__doc__.split("\n")[0])
    parser.add_argument("--sizes", default="50000,250000")
    parser.add_argument("--seed", type=int, default=1)
    parser.add_argument("--only", choices=sorted(CIRCUITS))
    parser.add_argument("--program", default=str(PROGRAM))
    parser.add_argument("--iverilog", default=shutil.which("iverilog"), help="the path of the compiler, or nothing to leave it out")
    parser.add_argument("--vvp", default=shutil.which("vvp"))
    options = parser.parse_args()
    sizes = [int(size) for size in options.sizes.split(",")]
    return min(sum(table(name, sizes, options) for name in CIRCUITS if options.only in (None, name)), 1)


if __name__ == "__main__":
    sys.exit(main())
