#!/usr/bin/env python3
"""Runs scripts of which one file has one byte changed, dropped or doubled, at random places.

    bench/changed_files.py [--places 20000] [--seed 1] [--jobs N] [--program PATH] [--only FILE] [--keep FOLDER]

The scripts are those of `examples/` and of the cases of `crates/run_tests/data`, each with the files beside it; the script is such a file too. Texts of more
than a mebibyte are left to `bench/dear_texts.py`, and so is a tree of a million elements. All files are taken in turn, in a random order, until there were as
many places as asked for. Each run is to end within a second of the processor and in less than 100 megabytes, with status 0, 1 or 2, since nothing else has a
cause here: with 1 exactly where the report has a line that is refused, a square that offends or a phase that did not settle, with whole lines alone, and
without a file that is not whole. It prints how many runs ended with each status, the longest and the largest, and each run that ended otherwise, whose files,
script and words are kept. Megabytes are at least those of this script, which starts the runs.
"""
import argparse
import os
import random
import re
import shutil
import sys
import tempfile
from collections import Counter
from concurrent.futures import ThreadPoolExecutor
from pathlib import Path

from bench import PROGRAM
from bounded_runs import ran
from case_files import TOP, all_cases

MOST_SECONDS, MOST_MEGABYTES = 1, 100
WAIT = 20
# It is larger also as it is, and stands in `dear_texts.py`.
LEFT_OUT = "67,932,000 merges of 68 lines"
# Where half of the changed bytes come from.
LIKELY = b"0123456789-+ \t\n\r#<>/[],:\"!=|.aAzZ_\x00\x7f\xff"
TOLD = re.compile(rb"^(line [0-9]+: E|offending |phase [0-9]+ unsettled)", re.MULTILINE)


class Script:
    """A script, the words after the program's name, and the files beside it."""

    def __init__(self, name, script, words, files):
        self.name, self.script, self.words, self.files = name, script, words, files

    def used(self):
        """The names of the files that the script may come to read; the empty one is that of the script."""
        asked = set(re.findall(rb"[A-Za-z0-9_-]+", b"\n".join([self.script] + [text for name, text in self.files.items() if not name.endswith(".tech")])))
        return [""] + [name for name in self.files if name.split(".")[0].encode() in asked and self.files[name]]


class Change:
    """A script with one byte of one file changed."""

    def __init__(self, script, name, dice):
        text = script.files[name] if name else script.script
        self.script, self.place, self.way = script, dice.randrange(max(len(text), 1)), dice.choice(["changed", "dropped", "doubled"])
        self.name, old = name, text[self.place:self.place + 1]
        new = bytes([dice.choice(LIKELY) if dice.random() < 0.5 else dice.randrange(256)])
        self.text = text[:self.place] + {"changed": new, "dropped": b"", "doubled": old + old}[self.way] + text[self.place + 1:]

    def told(self):
        return f"{self.script.name}: byte {self.place} of {self.name or 'the script'} {self.way}"


def scripts():
    """The scripts of examples and of cases."""
    for path in sorted((TOP / "examples").glob("*/*.script")):
        files = {other.name: other.read_bytes() for other in sorted(path.parent.iterdir()) if other.suffix not in (".script", ".report")}
        yield Script(f"examples/{path.parent.name}/{path.name}", path.read_bytes(), [], files)
    for file, cases in all_cases().items():
        for case in cases:
            if case.name != LEFT_OUT:
                yield Script(f"{file}: {case.name}", case.script, case.words, case.files)


def written(change, folder):
    """Writes the files of a run; the answer is the folder in which it is run."""
    here = folder / "here"
    here.mkdir()
    for name, text in change.script.files.items():
        (here / name).write_bytes(change.text if name == change.name else text)
    (folder / "script").write_bytes(change.script.script if change.name else change.text)
    return here


def faults_of(change, ending, report, here):
    """What is not as it is to be."""
    faults = [] if ending.status in (0, 1, 2) else [f"ended with {ending.status}"]
    faults += [] if ending.seconds <= MOST_SECONDS else [f"{ending.seconds:.2f} s"]
    faults += [] if ending.megabytes <= MOST_MEGABYTES else [f"{ending.megabytes:.0f} MB"]
    if ending.status in (0, 1) and "--quiet" not in change.script.words and bool(TOLD.search(report)) != (ending.status == 1):
        faults.append(f"status {ending.status} for this report")
    if report and not report.endswith(b"\n"):
        faults.append("a line that is not whole")
    return faults + [f"{path.name} is left" for path in here.glob("*.part")]


def tried(options, number, change):
    """Runs a script with a change, and tells how that ended, and what is not as it is to be."""
    with tempfile.TemporaryDirectory() as made:
        folder = Path(made)
        here = written(change, folder)
        ending = ran([options.program] + change.script.words, folder / "script", folder / "report", folder / "complaint", here, WAIT)
        faults = faults_of(change, ending, (folder / "report").read_bytes(), here)
        if faults:
            (folder / "words").write_text("".join(word + "\n" for word in change.script.words))
            (folder / "what").write_text(f"{change.told()}: {', '.join(faults)}\n")
            shutil.copytree(folder, options.keep / str(number), dirs_exist_ok=True)
        return ending, faults


def changes(options):
    """As many changes as asked for, of all files in turn."""
    dice = random.Random(options.seed)
    texts = [(script, name) for script in scripts() if options.only in (None, script.name.split(":")[0]) for name in script.used()]
    dice.shuffle(texts)
    print(f"{len(texts)} files, {options.places} places")
    return [Change(*texts[number % len(texts)], dice) for number in range(options.places)]


def main():
    parser = argparse.ArgumentParser(description=__doc__.split("\n")[0])
    parser.add_argument("--places", type=int, default=20000)
    parser.add_argument("--seed", type=int, default=1)
    parser.add_argument("--jobs", type=int, default=os.cpu_count())
    parser.add_argument("--program", default=str(PROGRAM))
    parser.add_argument("--only", help="the scripts of one file of cases, or of one example")
    parser.add_argument("--keep", type=Path, default=Path(tempfile.gettempdir()) / "changed_files")
    options = parser.parse_args()
    counts, wrong, longest, largest = Counter(), 0, (0, ""), (0, "")
    made = changes(options)
    with ThreadPoolExecutor(options.jobs) as pool:
        for number, (change, (ending, faults)) in enumerate(zip(made, pool.map(lambda it: tried(options, *it), enumerate(made)))):
            counts[str(ending.status)] += 1
            longest = max(longest, (ending.seconds, change.told()))
            largest = max(largest, (ending.megabytes, change.told()))
            if faults:
                wrong += 1
                print(f"{number}: {change.told()}: {', '.join(faults)}", flush=True)
    for status, count in sorted(counts.items()):
        print(f"{count:>7} runs ended with {'status ' * status.isdigit()}{status}")
    print(f"longest: {longest[0]:.2f} s: {longest[1]}\nlargest: {largest[0]:.0f} MB: {largest[1]}")
    print(f"{wrong} runs ended otherwise than they are to" + (f"; they are kept in {options.keep}" if wrong else ""))
    return min(wrong, 1)


if __name__ == "__main__":
    sys.exit(main())
