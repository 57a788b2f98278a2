#!/usr/bin/env python3
"""Refuses each request for memory of some scripts in turn, one of them in a run.

    bench/refused_memory.py [--program PATH] [--only NAME] [--jobs N] [--seconds N]

Each script is a case of `crates/run_tests/data`, run in a folder of its files. Requests are counted from the beginning of `main` on: what the system's
loader and the C library ask for before it is not the program's, and is not refused. A run is to end with status 5, a beginning of the case's report, the
first of its stores, each whole, and no other file; or as the case says, where what was refused was not needed; or with status 7 and nothing else, where it
was asked for the words of the command line. For each script it prints how many requests were refused, and how the runs ended; and each run that ended
otherwise. It needs the C compiler `cc`, and a program that takes its memory from the C library, as `bin/magex` builds it.
"""
import argparse
import os
import struct
import subprocess
import sys
import tempfile
from collections import Counter
from concurrent.futures import ThreadPoolExecutor
from pathlib import Path

from bench import PROGRAM
from case_files import case_of

SCRIPTS = {
    "cross": ("circuits.cases", "where poly crosses diffusion there is a transistor"),
    "wires": ("trees.cases", "wires upon each other are counted once"),
    "inverter": ("simulations.cases", "the circuit of an inverter turns its input over"),
    "array": ("trees.cases", "the elements of an array touch"),
    "undo": ("undos.cases", "each edit is taken back and made again, in its place among the others"),
}
COMPLAINTS = {5: b"magex: there was not enough memory\n", 7: b"magex: the words of the command line could not be had\n"}

# Takes the place of the C library's calls in the program that it is loaded into. The file that REFUSAL names holds three numbers: which request
# is to be refused, 0 for none, how many there were, and how many bytes the refused one asked for.
SHIM = r"""
#define _GNU_SOURCE
#include <dlfcn.h>
#include <errno.h>
#include <fcntl.h>
#include <stdlib.h>
#include <sys/mman.h>
#include <unistd.h>

extern void *__libc_malloc(size_t);
extern void *__libc_calloc(size_t, size_t);
extern void *__libc_realloc(void *, size_t);
extern void *__libc_memalign(size_t, size_t);

struct tally { unsigned long refuse, asked, size; };
static struct tally *tally;
static int (*whole)(int, char **, char **);

static int is_refused(size_t size) {
    if (!tally) return 0;
    if (__atomic_add_fetch(&tally->asked, 1, __ATOMIC_SEQ_CST) != tally->refuse) return 0;
    tally->size = size;
    errno = ENOMEM;
    return 1;
}

void *malloc(size_t size) { return is_refused(size) ? 0 : __libc_malloc(size); }
void *calloc(size_t count, size_t size) { return is_refused(count * size) ? 0 : __libc_calloc(count, size); }
void *realloc(void *block, size_t size) { return is_refused(size) ? 0 : __libc_realloc(block, size); }
void *memalign(size_t step, size_t size) { return is_refused(size) ? 0 : __libc_memalign(step, size); }
void *aligned_alloc(size_t step, size_t size) { return is_refused(size) ? 0 : __libc_memalign(step, size); }
int posix_memalign(void **block, size_t step, size_t size) {
    *block = is_refused(size) ? 0 : __libc_memalign(step, size);
    return *block ? 0 : ENOMEM;
}

static int counted_main(int count, char **words, char **settings) {
    int file = open(getenv("REFUSAL"), O_RDWR);
    void *place = mmap(0, sizeof(struct tally), PROT_READ | PROT_WRITE, MAP_SHARED, file, 0);
    close(file);
    if (place == MAP_FAILED) _exit(99);
    tally = place;
    return whole(count, words, settings);
}

int __libc_start_main(int (*main)(int, char **, char **), int count, char **words, void (*init)(void), void (*fini)(void),
                      void (*rtld_fini)(void), void *stack) {
    int (*real)(int (*)(int, char **, char **), int, char **, void (*)(void), void (*)(void), void (*)(void), void *);
    real = dlsym(RTLD_NEXT, "__libc_start_main");
    whole = main;
    return real(counted_main, count, words, init, fini, rtld_fini, stack);
}
"""


class Ending:
    """How a run ended."""

    def __init__(self, status, report, complaint, files, asked, size):
        self.status, self.report, self.complaint, self.files, self.asked, self.size = status, report, complaint, files, asked, size


def built(folder):
    """The shim, compiled."""
    (folder / "shim.c").write_text(SHIM)
    subprocess.run(["cc", "-O1", "-shared", "-fPIC", "-o", folder / "shim.so", folder / "shim.c", "-ldl"], check=True)
    return folder / "shim.so"


def ran(options, shim, case, number):
    """Runs a case with the request of that number refused."""
    with tempfile.TemporaryDirectory() as made:
        folder, tally = Path(made) / "here", Path(made) / "tally"
        folder.mkdir()
        for name, text in case.files.items():
            (folder / name).write_bytes(text)
        tally.write_bytes(struct.pack("LLL", number, 0, 0))
        settings = {"LD_PRELOAD": str(shim), "REFUSAL": str(tally)}
        try:
            done = subprocess.run([options.program] + case.words, input=case.script, capture_output=True, cwd=folder, env=settings,
                                  timeout=options.seconds, check=False)
            status, report, complaint = done.returncode, done.stdout, done.stderr
        except subprocess.TimeoutExpired as over:
            status, report, complaint = "no end", over.stdout or b"", over.stderr or b""
        _, asked, size = struct.unpack("LLL", tally.read_bytes())
        return Ending(status, report, complaint, {path.name: path.read_bytes() for path in folder.iterdir()}, asked, size)


def whole_faults(case, ending):
    """What is not as the case says."""
    faults = [] if ending.status == case.status else [f"status {ending.status}"]
    faults += [] if ending.report == case.report else ["another report"]
    return faults + ([] if ending.files == {**case.files, **dict(case.stored)} else ["other files"])


def refused_faults(case, ending):
    """What is not as it is to be after a refusal that was told."""
    stores = len(case.stored) if ending.status == 5 else 0
    faults = [] if (case.report if ending.status == 5 else b"").startswith(ending.report) else ["no beginning of the report"]
    shelves = [{**case.files, **dict(case.stored[:count])} for count in range(stores + 1)]
    faults += [] if ending.files in shelves else ["files that are not the first stores: " + " ".join(sorted(set(ending.files) - set(case.files)))]
    return faults + ([] if ending.complaint == COMPLAINTS[ending.status] else [f"said {ending.complaint!r}"])


def measured(name, options, shim):
    """Refuses each request of a script, and prints its row. The answer is how many runs ended otherwise than they are to."""
    case = case_of(*SCRIPTS[name])
    calm = ran(options, shim, case, 0)
    if whole_faults(case, calm) or not calm.asked:
        print(f"{name}: undisturbed, {calm.asked} requests: {', '.join(whole_faults(case, calm)) or 'none that the shim sees'}")
        return 1
    counts, wrong = Counter(), []
    with ThreadPoolExecutor(options.jobs) as pool:
        for number, ending in enumerate(pool.map(lambda number: ran(options, shim, case, number), range(1, calm.asked + 1)), 1):
            faults = refused_faults(case, ending) if ending.status in COMPLAINTS else whole_faults(case, ending)
            counts["otherwise" if faults else f"status {ending.status}" if ending.status in COMPLAINTS else "whole"] += 1
            if faults:
                wrong.append(f"  request {number} of {ending.size} bytes: status {ending.status}: {', '.join(faults)}: {ending.complaint[:200]!r}")
    print(f"{name:<9} {calm.asked:>9} {counts['status 5']:>9} {counts['status 7']:>9} {counts['whole']:>9} {counts['otherwise']:>9}", flush=True)
    print("".join(line + "\n" for line in wrong), end="")
    return len(wrong)


def main():
    parser = argparse.ArgumentParser(description=__doc__.split("\n")[0])
    parser.add_argument("--program", default=str(PROGRAM))
    parser.add_argument("--only", choices=sorted(SCRIPTS))
    parser.add_argument("--jobs", type=int, default=os.cpu_count())
    parser.add_argument("--seconds", type=float, default=10, help="the most that a run may take")
    options = parser.parse_args()
    with tempfile.TemporaryDirectory() as made:
        shim = built(Path(made))
        print(f"{'script':<9} {'refused':>9} {'status 5':>9} {'status 7':>9} {'whole':>9} {'otherwise':>9}")
        return min(sum(measured(name, options, shim) for name in SCRIPTS if options.only in (None, name)), 1)


if __name__ == "__main__":
    sys.exit(main())
