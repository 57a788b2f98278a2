#!/usr/bin/env python3
"""Times `nodes` alone, on layouts that are made from a number: a run with `tech`, `load` and `nodes` less one without `nodes`.

    bench/nodes.py [--sizes 30000,100000,300000] [--seed 1] [--runs 3] [--program PATH]

For each layout it prints the seconds of the load and those of the nodes, the least of some runs, the megabytes that the nodes take beside those of
the load, and the power of n by which the time of the nodes grew since the size before. A tenth of the rectangles of `labels` have a label each.
"""
import argparse
import math
import tempfile
from pathlib import Path

import workloads
from bench import LAYERS, PROGRAM, TECHNOLOGY, timed

LAYOUTS = {
    "comb": (workloads.comb, 0),
    "grid": (workloads.grid, 0),
    "shuffled": (workloads.shuffled, 0),
    "overlapping": (workloads.overlapping, 0),
    "labels": (workloads.shuffled, 10),
}


def measured(program, rects, labels, runs, folder):
    """The seconds and the megabytes of the load, and of the nodes beside it."""
    (folder / "four.tech").write_text(TECHNOLOGY)
    (folder / "cell.mag").write_text(workloads.mag_text(rects, "four", LAYERS, labels))
    (folder / "load.script").write_text("tech four\nload cell\n")
    (folder / "nodes.script").write_text("tech four\nload cell\nnodes cell\n")
    load = min((timed([program], folder / "load.script", folder) for _ in range(runs)), key=lambda run: run.seconds)
    whole = min((timed([program], folder / "nodes.script", folder) for _ in range(runs)), key=lambda run: run.seconds)
    assert load.status == whole.status == 0
    return load.seconds, whole.seconds - load.seconds, whole.megabytes - load.megabytes


def main():
    parser = argparse.ArgumentParser(description=__doc__.split("\n")[0])
    parser.add_argument("--sizes", default="30000,100000,300000")
    parser.add_argument("--seed", type=int, default=1)
    parser.add_argument("--runs", type=int, default=3)
    parser.add_argument("--program", default=str(PROGRAM))
    options = parser.parse_args()
    print(f"{'layout':>12} {'size':>9} {'load s':>8} {'nodes s':>8} {'MB':>6}  growth")
    for name, (make, part) in LAYOUTS.items():
        before = None
        for size in map(int, options.sizes.split(",")):
            rects = make(size, options.seed)
            labels = size // part if part else 0
            with tempfile.TemporaryDirectory() as folder:
                load, nodes, megabytes = measured(options.program, rects, labels, options.runs, Path(folder))
            power = f"n^{math.log(nodes / before[1]) / math.log(size / before[0]):.2f}" if before and nodes > 0 and before[1] > 0 else ""
            print(f"{name:>12} {size:>9} {load:>8.2f} {nodes:>8.2f} {megabytes:>6.0f}  {power}", flush=True)
            before = (size, nodes)


if __name__ == "__main__":
    main()
