#!/usr/bin/env python3
"""Makes the cases of run_tests from the scripts of `examples/`, or checks what stands there.

    bench/example_cases.py              writes crates/run_tests/data/examples.cases, and the report and the stored files beside each script
    bench/example_cases.py --check      writes nothing, and ends with status 1 where something that it would write stands otherwise

Reports and stored files are worked out by `plain_runs.py`, square by square and path by path, and never by the program. A script `NAME.script` has its
report in `NAME.report`. Of the files that it stores those are kept beside it that a file of that name stands for already, or that KEPT names.
"""
import argparse
import contextlib
import io
import sys
from pathlib import Path

from plain_runs import run
from random_cases import written_cases

TOP = Path(__file__).resolve().parent.parent
EXAMPLES, CASES = TOP / "examples", TOP / "crates/run_tests/data/examples.cases"
READ = (".tech", ".mag", ".vec", ".drc", ".cif", ".ext", ".sim")
HEAD = "# The scripts of examples/, written by bench/example_cases.py. Their answers were worked out there, apart from the program."


def lines_of(path):
    return path.read_text().splitlines()


def given(script):
    """The files beside a script that it may read, without those that it stores itself."""
    return {path.name: lines_of(path) for path in sorted(script.parent.iterdir()) if path.suffix in READ}


def used(files, script):
    """The files that a script reads: those that its lines name, and the cells below those."""
    names = set()
    for words in (line.split() for line in script):
        for verb, endings in FETCHED.items():
            if words[:1] == [verb]:
                names |= {word + ending for word, ending in zip(words[1:], endings)}
    todo = [name for name in names if name.endswith((".mag", ".ext"))]
    while todo:
        ending = todo[-1][-4:]
        uses = [line.split()[1] + ending for line in files.get(todo.pop(), []) if line.startswith("use ")]
        todo += [name for name in uses if name not in names]
        names |= set(uses)
    return {name: files[name] for name in sorted(names) if name in files}


def is_made(name, script):
    """Whether a script stores a file that it reads."""
    makers = MAKERS.get(name[-4:], ())
    return any(words[:1] == [verb] and (name[-4:] == ".ext" or words[1:] == [name[:-4]]) for words in map(str.split, script) for verb in makers)


MAKERS = {".ext": ["extract"], ".sim": ["sim", "ext2sim"], ".cif": ["cif"]}
FETCHED = {"tech": [".tech"], "load": [".mag"], "drc": ["", ".drc"], "cifstat": [".cif"], "vectors": ["", ".vec"], "grade": ["", ".vec"],
           "simrun": [".sim", ".vec"], "ext2sim": [".ext"]}


def text_of(lines):
    return "".join(line + "\n" for line in lines)


def example(path):
    """A script's case, and the files that are to stand beside it."""
    script = lines_of(path)
    files = {name: lines for name, lines in used(given(path), script).items() if not is_made(name, script)}
    report, stored, status = run(files, script)
    beside = {path.with_suffix(".report"): text_of(report)}
    for name, lines in stored:
        if (path.parent / name).exists() and name not in files:
            beside[path.parent / name] = text_of(lines)
    name = "%s/%s" % (path.parent.name, path.stem)
    return (name, [(name, text_of(lines)) for name, lines in files.items()], script, report, status, stored), beside


def main():
    options = argparse.ArgumentParser(description=__doc__, formatter_class=argparse.RawDescriptionHelpFormatter)
    options.add_argument("--check", action="store_true")
    options.add_argument("--only", help="a folder of examples/, whose files alone are written or checked")
    chosen = options.parse_args()
    cases, files = [], {}
    for path in sorted(EXAMPLES.glob("%s/*.script" % (chosen.only or "*"))):
        case, beside = example(path)
        cases.append(case)
        files.update(beside)
    if not chosen.only:
        with contextlib.redirect_stdout(io.StringIO()) as written:
            print(HEAD)
            written_cases(cases)
        files[CASES] = written.getvalue()
    wrong = [path for path, text in files.items() if not path.exists() or path.read_text() != text]
    for path in wrong:
        print(path.relative_to(TOP), "stands otherwise" if chosen.check else "is written")
        if not chosen.check:
            path.write_text(files[path])
    sys.exit(bool(chosen.check and wrong))


if __name__ == "__main__":
    main()
