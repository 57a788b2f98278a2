#!/usr/bin/env python3
"""Writes the list by which bin/magex tells how far a build is.

    bench/proof_seconds.py >bin/seconds

A line has a crate that the program stands on and the seconds of processor that its proof takes, in the order in which `rt run` proves them. The seconds
are those of the table under "The gate" of docs/SPEED.md, where it has the crate, and else go by its lines of definitions and proofs.
"""
import re
from pathlib import Path

TOP = Path(__file__).resolve().parent.parent
# 174,000 lines took 222 minutes.
SECONDS_A_LINE = 222 * 60 / 174000


def libraries():
    """The crates of crates.txt, each with those of them that it names."""
    rows = {}
    for line in (TOP / "crates.txt").read_text().splitlines():
        name, colon, rest = line.partition("#")[0].partition(":")
        if colon:
            rows[name.split()[0]] = rest.split()
    return {name: [other for other in others if other in rows] for name, others in rows.items()}


def in_order(rows, name, found):
    """Adds the crates below this one, each behind those that it uses."""
    for other in rows[name]:
        if other not in found:
            in_order(rows, other, found)
            found.append(other)
    return found


def minutes_told():
    """The minutes of the table of the gate, by crate."""
    text = (TOP / "docs/SPEED.md").read_text().partition("\n## The gate\n")[2]
    return {name: float(minutes) for name, minutes in re.findall(r"\| `(\w+)` \| ([0-9.]+) ", text)}


def lines_of(crate):
    """The lines of a crate's definitions and proofs."""
    files = [path for path in (TOP / "crates" / crate).rglob("*.antt") if "out" not in path.parts]
    return sum(path.read_text().count("\n") for path in files)


def main():
    told = minutes_told()
    for crate in in_order(libraries(), "magex", []):
        seconds = told[crate] * 60 if crate in told else lines_of(crate) * SECONDS_A_LINE
        print(crate, max(1, round(seconds)))


if __name__ == "__main__":
    main()
