#!/usr/bin/env python3
"""Counts the paths of crates.txt from each crate down to the ground, which the gate walks, and names the lines that could be spared.

    bench/paths.py [N]    the number of paths, the crates with most, and the N lines that cost most (20) whose end is reached otherwise

A line "12000 above -> below" says that 12,000 paths fewer were walked if `above` named `below` through what stands between
(CONTRIBUTING.md, "crates.txt"); "code" is added where the code of `above` calls it, and not its clauses and proofs alone.
"""
import functools
import glob
import re
import sys


def lists():
    """The crates of this repository that each crate names."""
    named = {}
    with open("crates.txt", encoding="utf8") as file:
        for line in file:
            if ":" in line and not line.startswith("#"):
                crate, below = line.split(":", 1)
                named[crate] = below.split()
    return {crate: [it for it in below if it in named] for crate, below in named.items()}


def reached(named, crate, without):
    """What stands below a crate if it did not name one of the crates that it does."""
    found, left = set(), [it for it in named[crate] if it != without]
    while left:
        at = left.pop()
        if at not in found:
            found.add(at)
            left += named[at]
    return found


def calls(crate, below):
    """Whether code of the crate calls the other."""
    for path in glob.glob(f"crates/{crate}/src/**/*.rt", recursive=True):
        with open(path, encoding="utf8") as file:
            if re.search(rf"\b{below}::", re.sub(r"//.*", "", file.read())):
                return True
    return False


def main():
    most = int(sys.argv[1]) if len(sys.argv) > 1 else 20
    named = lists()
    above = {crate: [it for it in named if crate in named[it]] for crate in named}

    @functools.lru_cache(None)
    def down(crate):
        return sum(1 + down(it) for it in named[crate])

    @functools.lru_cache(None)
    def up(crate):
        return 1 + sum(up(it) for it in above[crate])

    print(sum(map(down, named)), "paths")
    for crate in sorted(named, key=down, reverse=True)[:8]:
        print(f"{down(crate):8} {crate}")
    lines = [(up(a) * (1 + down(b)), a, b) for a in named for b in named[a] if b in reached(named, a, b)]
    for paths, a, b in sorted(lines, reverse=True)[:most]:
        print(f"{paths:8} {a} -> {b}{' code' if calls(a, b) else ''}")


main()
