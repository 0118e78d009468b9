#!/usr/bin/env python3
"""Tells what a check of a crate spends its time on.

usage: tools/costs.py CRATE [--test] [--lines N]

The crates below are proved first, as tools/build.py does. Then one job checks the crate from nothing. The prover writes
a file for each module that it has checked, so the time between two files is what the second one took, by the clock.
Prints the seconds by kind of module, by function, and of single modules, N lines of each, with the size of what was
written. Seconds swing with the machine and what else it does; sizes don't, so they tell whether a body's model shrank.
With --test the crate's tests are checked too.

The kinds that matter: Lts is the model of a function's body, and grows with its statements, and with how many values
live across them. Proof has the goals that no answer is written for, which tactics look for. Answers has those that
are answered, and a name of this repository's is a file of lemmas.
"""
import argparse
import collections
import os
import sys
import tempfile

from build import ROOT, below, prove, read_crates, words_of
from mutations import run


def check(crates, name, kept, flags):
    """Checks a crate from nothing, and leaves a file for each module in a folder. Returns whether it is proved."""
    words = [*words_of(crates, name, "check"), "--jobs", "1", "--incremental", kept, *flags]
    status, lines = run(words, f"{ROOT}/crates/{name}")
    print(lines[-1])
    return status == 0


def modules_in(kept, name):
    """The modules of a crate whose files are in a folder: name, seconds from the one before it, and bytes."""
    files = []
    for at, _, names in os.walk(kept):
        if os.path.basename(at) != "records":
            checked = [it.removesuffix(".oantt") for it in names if it.endswith(".oantt")]
            stats = [(os.stat(f"{at}/{it}.oantt"), it) for it in checked]
            files += [(known.st_mtime_ns, it, known.st_size) for known, it in stats]
    files.sort()
    steps = zip(files, files[1:])
    return [(it.removeprefix(f"Rattle-{name}-"), (time - old[0]) / 1e9, size) for old, (time, it, size) in steps]


def show(title, costs, sizes, most):
    total = sum(costs.values())
    print(f"\n{title}:")
    for name, seconds in costs.most_common(most):
        print(f"{seconds:8.1f} s {100 * seconds / total:5.1f} % {sizes[name] / 1e6:8.2f} MB  {name}")


def report(modules, most):
    kinds, functions, single = [(collections.Counter(), collections.Counter()) for _ in range(3)]
    for name, seconds, size in modules:
        function, _, kind = name.rpartition(".")
        kind = "contracts" if ".contracts." in name else kind.partition("-")[0]
        for (costs, sizes), key in ((kinds, kind), (functions, function), (single, name)):
            costs[key] += seconds
            sizes[key] += size
    costs, sizes = single
    print(f"{len(modules)} modules in {sum(costs.values()):.0f} s, {sum(sizes.values()) / 1e6:.1f} MB")
    show("by kind", *kinds, most)
    show("by function, or folder of lemmas", *functions, most)
    show("single modules", *single, most)


def main():
    parser = argparse.ArgumentParser(description=__doc__.split("\n", 1)[0])
    parser.add_argument("crate")
    parser.add_argument("--test", action="store_true", help="with the crate's tests")
    parser.add_argument("--lines", type=int, default=20)
    given = parser.parse_args()
    crates = read_crates()
    if not prove(crates, below(crates, given.crate)):
        return 1
    with tempfile.TemporaryDirectory(prefix=f"costs-{given.crate}-") as kept:
        proved = check(crates, given.crate, kept, ["--test"] if given.test else [])
        report(modules_in(kept, given.crate), given.lines)
    return 0 if proved else 1


if __name__ == "__main__":
    sys.exit(main())
