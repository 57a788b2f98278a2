#!/usr/bin/env python3
"""How time grows: many workloads, each at three sizes, in one table; and the goals that the project has set itself, in another.

    bench/growth.py [--only WORD] [--scale F] [--program PATH] [--goals]

A row has the seconds of processor of the whole run at each size, the least of three runs, the most megabytes at the greatest, and the power of n by which time grew
from the first size to the last, the seconds of an empty script taken off. With `--goals` it measures the workloads that have a goal, and prints it beside
what was measured. `--only` takes the workloads whose names have the word, `--scale` multiplies all sizes.
"""
import argparse
import math
import random
import tempfile
from pathlib import Path

import bench
import circuits
import grades
import hierarchies
import simulations
import workloads
from bench import PROGRAM, TOP, timed

RUNS = 3
SEED = 1
NM = (TOP / "crates/run_tests/data/nm.tech").read_text()


def cell(make, last="nodes cell"):
    """A flat cell of one of `workloads`, loaded."""
    def write(size, folder):
        (folder / "four.tech").write_text(bench.TECHNOLOGY)
        (folder / "cell.mag").write_text(workloads.mag_text(make(size, SEED), "four", bench.LAYERS))
        return ["tech four", "load cell", last]
    return write


def tall(rects):
    """The same turned upright."""
    return [(layer, (y, x, yhi, xhi)) for layer, (x, y, xhi, yhi) in rects]


def crossed(count, seed):
    """Wires across as many others of another layer: so many squares at which they cross."""
    side = math.isqrt(count)
    across = [(0, (0, 4 * k, 4 * side, 4 * k + 2)) for k in range(side)]
    return across + [(1, (4 * k, 0, 4 * k + 2, 4 * side)) for k in range(side)]


def nm_cell(rects, lines=("load cell",)):
    """A cell of poly, diffusion and taps in the technology of the circuits."""
    def write(size, folder):
        (folder / "nm.tech").write_text(circuits.NM)
        text = ["magic", "tech nm", "timestamp 0"]
        for layer, areas in rects(size).items():
            text += [f"<< {layer} >>"] + ["rect %d %d %d %d" % area for area in areas]
        (folder / "cell.mag").write_text("\n".join(text + ["<< end >>"]) + "\n")
        return ["tech nm", *lines]
    return write


def comb(count):
    """A strip of diffusion, and teeth of poly over it."""
    return {"diff": [(-2, 2, 4 * count, 4)], "poly": [(4 * k, 0, 4 * k + 2, 6) for k in range(count)]}


def taps(count):
    """A strip of diffusion with wires of poly over it, and a tap between each two."""
    return {"diff": [(0, 0, 8 * count, 6)], "tap": [(8 * k + 4, 2, 8 * k + 6, 4) for k in range(count)],
            "poly": [(8 * k, -2, 8 * k + 2, 8) for k in range(count)]}


def posts(count):
    """Posts on a strip, that are painted again and again."""
    return {"diff": [(0, 0, 8 * count, 6)], "poly": [(8 * k, 0, 8 * k + 4, 20) for k in range(count)],
            "tap": [(8 * k, 2, 8 * k + 4, 4) for k in range(count)]}


def upright(make):
    """The same turned upright."""
    def turned(count):
        return {layer: [(y, x, yhi, xhi) for x, y, xhi, yhi in areas] for layer, areas in make(count).items()}
    turned.__doc__ = make.__doc__
    return turned


def adders_in_a_row(switches, folder):
    """Transistors side by side in one row, as `bench/grades.py` draws them."""
    dice = random.Random(SEED)
    circuit, _ = simulations.adders(switches, dice)
    (folder / "mos.tech").write_text(grades.TECHNOLOGY)
    (folder / "c.mag").write_text(grades.mag_text(circuit))
    return ["tech mos", "load c"]


def hierarchy(make, lines):
    """Cells that use each other."""
    def write(size, folder):
        (folder / "nm.tech").write_text(NM)
        hierarchies.write_cells(make(size), "nm", 0, folder)
        return ["tech nm", "load top", *lines]
    return write


def circuit_files(make):
    """A tree of circuit files."""
    def write(size, folder):
        for name, text in make(size).items():
            (folder / f"{name}.ext").write_text(text)
        return ["ext2sim root"]
    return write


def network(make):
    """A network as a sim file, and its vectors."""
    def write(size, folder):
        circuit, vectors = make(size, random.Random(SEED))
        (folder / "c.sim").write_text(circuit.sim_text())
        (folder / "v.vec").write_text(simulations.vector_text(vectors))
        return ["simrun c v"]
    return write


def stack(rows, folder):
    """A stack of so many rows of as many tiles, as a circuit and as a network, with a phase."""
    (folder / "nm.tech").write_text(NM)
    return ["tech nm", f"generate {rows}"]


def side(make):
    return lambda size: make(math.isqrt(size))


# name, what makes it, three sizes
GROWTH = [
    ("squares in a grid", cell(workloads.grid), (30_000, 100_000, 300_000)),
    ("the grid shuffled", cell(workloads.shuffled), (30_000, 100_000, 300_000)),
    ("overlapping rectangles", cell(workloads.overlapping), (30_000, 100_000, 300_000)),
    ("a comb", cell(workloads.comb), (30_000, 100_000, 300_000)),
    ("the comb upright", cell(lambda n, seed: tall(workloads.comb(n, seed))), (30_000, 100_000, 300_000)),
    ("wires across wires, by squares", cell(crossed), (10_000, 40_000, 160_000)),
    ("wires across wires upright", cell(lambda n, seed: tall(crossed(n, seed))), (10_000, 40_000, 160_000)),
    ("poly across a strip", nm_cell(comb), (10_000, 40_000, 160_000)),
    ("poly across an upright strip", nm_cell(upright(comb)), (10_000, 40_000, 160_000)),
    ("poly and taps across a strip", nm_cell(taps), (5_000, 20_000, 80_000)),
    ("poly and taps across an upright strip", nm_cell(upright(taps)), (2_000, 8_000, 32_000)),
    ("posts painted again", nm_cell(posts), (5_000, 20_000, 80_000)),
    ("upright posts painted again", nm_cell(upright(posts)), (5_000, 20_000, 80_000)),
    ("transistors in a row", adders_in_a_row, (1_792, 7_168, 28_672)),
    ("array, sim", hierarchy(side(hierarchies.array), ["sim top"]), (10_000, 62_500, 250_000)),
    ("array, squares", hierarchy(side(hierarchies.array), ["squares top"]), (10_000, 62_500, 250_000)),
    ("tree, sim", hierarchy(hierarchies.tree, ["sim top"]), (10_000, 20_000, 40_000)),
    ("ext2sim", circuit_files(circuits.plain), (10_000, 100_000, 1_000_000)),
    ("ext2sim with merges", circuit_files(circuits.chains), (10_000, 100_000, 1_000_000)),
    ("chains of inverters", network(simulations.chains), (10_000, 50_000, 250_000)),
    ("adders", network(simulations.adders), (10_000, 50_000, 250_000)),
    ("shift registers", network(simulations.registers), (10_000, 50_000, 250_000)),
    ("generate, by tiles", lambda size, folder: stack(math.isqrt(size), folder), (10_000, 40_000, 250_000)),
]

# name, what makes it, the size, seconds and megabytes at most
GOALS = [
    ("array of 500 by 500, flat", hierarchy(hierarchies.array, ["flat top"]), 500, 2.5, 210),
    ("array of 500 by 500, sim", hierarchy(hierarchies.array, ["sim top"]), 500, 2.5, 210),
    ("tree of 40,000 elements, sim", hierarchy(hierarchies.tree, ["sim top"]), 40_000, 3.5, 230),
    ("100,000 overlapping rectangles, sim", cell(workloads.overlapping, "sim cell"), 100_000, 0.8, 80),
    ("100,000 overlapping rectangles, nodes", cell(workloads.overlapping), 100_000, 0.5, 80),
    ("ext2sim of 1,000,000 records", circuit_files(circuits.plain), 1_000_000, 0.9, 400),
    ("ext2sim of 1,000,000 records with merges", circuit_files(circuits.chains), 1_000_000, 0.9, 400),
    ("shift registers of 250,000 switches", network(simulations.registers), 250_000, 2.8, 120),
    ("generate 500", stack, 500, 2.5, 300),
]


def run(program, write, size, runs=RUNS):
    """The least seconds of processor of some runs, and the most megabytes."""
    with tempfile.TemporaryDirectory() as name:
        folder = Path(name)
        lines = write(size, folder)
        (folder / "run.script").write_text("\n".join(lines) + "\n")
        found = [timed([program], folder / "run.script", folder) for _ in range(runs)]
    assert all(one.status == 0 for one in found), [one.status for one in found]
    return min(one.processor for one in found), max(one.megabytes for one in found)


def main():
    parser = argparse.ArgumentParser(description=__doc__.split("\n")[0])
    parser.add_argument("--only", default="")
    parser.add_argument("--scale", type=float, default=1)
    parser.add_argument("--program", default=str(PROGRAM))
    parser.add_argument("--goals", action="store_true")
    options = parser.parse_args()
    if options.goals:
        print("| Workload | Seconds | Goal | MB | Goal |\n|---|---:|---:|---:|---:|")
        for name, write, size, seconds, megabytes in GOALS:
            if options.only in name:
                took, peak = run(options.program, write, size)
                print(f"| {name} | {took:.2f} | {seconds} | {peak:.0f} | {megabytes} |", flush=True)
        return
    start = run(options.program, lambda size, folder: [], 0)[0]
    print("| Workload | Sizes | Seconds | MB | Growth |\n|---|---|---|---:|---:|")
    for name, write, sizes in GROWTH:
        if options.only not in name:
            continue
        sizes = [int(size * options.scale) for size in sizes]
        took = [run(options.program, write, size) for size in sizes]
        seconds = [max(one - start, 1e-4) for one, _ in took]
        power = math.log(seconds[-1] / seconds[0]) / math.log(sizes[-1] / sizes[0])
        print(f"| {name} | {', '.join(f'{size:,}' for size in sizes)} | {', '.join(f'{one:.2f}' for one, _ in took)} | {took[-1][1]:.0f} | n^{power:.2f} |",
              flush=True)


if __name__ == "__main__":
    main()
