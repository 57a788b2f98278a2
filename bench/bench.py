#!/usr/bin/env python3
"""Times the built program on layouts that are made from a number, and Magic on the same cells where it is installed.

    bench/bench.py [--sizes 30000,100000,300000] [--seed 1] [--only NAME] [--program PATH] [--magic PATH]

It prints a table for each workload: seconds and peak megabytes at each size, the growth from one size to the next (n to the power
that is printed), Magic's seconds without its start-up, and the ratio. Nothing but Python's standard library is needed. The program
is built by `bin/magex`, which is run once with an empty script before anything is timed.
"""
import argparse
import math
import os
import shutil
import subprocess
import sys
import tempfile
import time
from pathlib import Path

import workloads

TOP = Path(__file__).resolve().parent.parent
PROGRAM = TOP / "crates/magex/out/magex"
SECONDS_AT_MOST = 600

# One plane with four layers that don't connect.
TECHNOLOGY = """tech
 four
end
planes
 wire
end
types
 wire a
 wire b
 wire c
 wire d
end
connect
end
extract
 resist a,b,c,d 100
 cap a,b,c,d 10 1
end
"""
LAYERS = ["a", "b", "c", "d"]
MAGIC_LAYERS = ["metal1", "metal2", "metal3", "polysilicon"]

WORKLOADS = {
    "grid": (workloads.grid, 1),
    "shuffled": (workloads.shuffled, 1),
    "overlapping": (workloads.overlapping, 1),
    "wires": (workloads.wires, 1 / 500),
}


class Run:
    """What a run took, and how much of it the processor was at work."""

    def __init__(self, seconds, megabytes, status, processor=0.0):
        self.seconds, self.megabytes, self.status, self.processor = seconds, megabytes, status, processor


def peak_of(pid):
    """The most megabytes that a running process has had, 0 where that can't be read."""
    try:
        with open(f"/proc/{pid}/status") as lines:
            return max((int(it.split()[1]) for it in lines if it.startswith("VmHWM:")), default=0) / 1024
    except OSError:
        return 0


def timed(command, script, folder, report=os.devnull):
    """Runs a command on a script, writes what it reports to a file, and waits for it. Its peak is read while it runs: what the
    system tells of an ended process counts the memory of this one, which started it."""
    peak = 0
    with open(script, "rb") as source, open(report, "wb") as sink:
        began = time.perf_counter()
        child = subprocess.Popen(command, stdin=source, stdout=sink, stderr=subprocess.DEVNULL, cwd=folder)
        while True:
            peak = max(peak, peak_of(child.pid))
            pid, status, used = os.wait4(child.pid, os.WNOHANG)
            if pid:
                break
            if time.perf_counter() - began > SECONDS_AT_MOST:
                child.kill()
                _, status, used = os.wait4(child.pid, 0)
                break
            time.sleep(0.002)
        child.returncode = os.waitstatus_to_exitcode(status)
        return Run(time.perf_counter() - began, peak, child.returncode, used.ru_utime + used.ru_stime)


def run_program(program, rects, folder):
    """`tech`, `load` and `nodes` of one cell."""
    (folder / "four.tech").write_text(TECHNOLOGY)
    (folder / "cell.mag").write_text(workloads.mag_text(rects, "four", LAYERS))
    (folder / "cell.script").write_text("tech four\nload cell\nnodes cell\n")
    return timed([str(program)], folder / "cell.script", folder)


def run_magic(magic, rects, folder):
    """Reading, extraction and a flat sim file of the same cell, start-up taken off."""
    (folder / "cell.mag").write_text(workloads.mag_text(rects, "scmos", MAGIC_LAYERS))
    (folder / "none.tcl").write_text("quit -noprompt\n")
    (folder / "cell.tcl").write_text("load cell\nextract all\next2sim cell\nquit -noprompt\n")
    command = [magic, "-dnull", "-noconsole", "-rcfile", "/dev/null", "-T", "scmos"]
    start = timed(command, folder / "none.tcl", folder)
    whole = timed(command, folder / "cell.tcl", folder)
    return Run(max(whole.seconds - start.seconds, 0.0), whole.megabytes, whole.status)


def growth(before, now):
    """The power of n by which time grew."""
    (size, run), (larger, next_run) = before, now
    if run.seconds <= 0 or next_run.seconds <= 0:
        return ""
    return f"n^{math.log(next_run.seconds / run.seconds) / math.log(larger / size):.2f}"


def table(name, make, part, sizes, options):
    """Runs one workload at each size, and prints a row for each."""
    print(f"\n{name}: {make.__doc__}")
    print(f"{'size':>9} {'s':>8} {'MB':>7} {'growth':>8} {'Magic s':>9} {'Magic MB':>9} {'ratio':>7}")
    before = None
    for size in sizes:
        count = max(int(size * part), 1)
        rects = make(count, options.seed)
        with tempfile.TemporaryDirectory() as ours, tempfile.TemporaryDirectory() as theirs:
            run = run_program(options.program, rects, Path(ours))
            magic = run_magic(options.magic, rects, Path(theirs)) if options.magic else None
        if run.status != 0:
            print(f"{len(rects):>9} ended with status {run.status} after {run.seconds:.1f} s")
            before = None
            continue
        grown = growth(before, (len(rects), run)) if before else ""
        other = f"{magic.seconds:>9.2f} {magic.megabytes:>9.0f} {magic.seconds / run.seconds:>7.1f}" if magic else ""
        print(f"{len(rects):>9} {run.seconds:>8.2f} {run.megabytes:>7.0f} {grown:>8} {other}", flush=True)
        before = (len(rects), run)


def main():
    parser = argparse.ArgumentParser(description=__doc__.split("\n")[0])
    parser.add_argument("--sizes", default="30000,100000,300000")
    parser.add_argument("--seed", type=int, default=1)
    parser.add_argument("--only", choices=sorted(WORKLOADS))
    parser.add_argument("--program", default=str(PROGRAM))
    parser.add_argument("--magic", default=shutil.which("magic"), help="the path of Magic, or nothing to leave it out")
    options = parser.parse_args()
    if options.program == str(PROGRAM):
        subprocess.run([str(TOP / "bin/magex")], stdin=subprocess.DEVNULL, stdout=subprocess.DEVNULL, check=True)
    sizes = [int(size) for size in options.sizes.split(",")]
    for name, (make, part) in WORKLOADS.items():
        if options.only in (None, name):
            table(name, make, part, sizes, options)
    return 0


if __name__ == "__main__":
    sys.exit(main())
