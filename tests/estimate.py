#!/usr/bin/env python3
"""How well make run estimates its time: a log of one run, with the crates and the table of seconds that it had.

usage: tests/estimate.py FOLDER

FOLDER has the log, the lines of crates.txt and the table of tools/seconds.txt. The table's figures are of an older run.
Each crate of today has to have its figure in today's table. The last line is 'N passed, M failed'.
"""
import os
import re
import sys

from harness import ROOT, Tests, content, program_of, write

sys.path.append(f"{ROOT}/tools")

import build  # noqa: E402

HEAD = re.compile(r"^to prove: (\d+) of \d+ crates, (\d+) at a time, ", re.M)
LINE = re.compile(r"^\[\d+ of \d+, (\d+):(\d\d)\] (\w+): proved \((\d+) s of processor time\)", re.M)
# Of the time that the run took, by how much of it an estimate may be wrong.
WRONG = 0.25


def table(tests):
    """The table has each crate that make run or make lib proves."""
    crates = build.read_crates()
    names = {it for name in ("flatc", "flatc_c") for it in [*build.below(crates, name), name]}
    noted = set(build.noted_seconds())
    tests.tell("the table has the crates of today", names == noted, f"{sorted(names ^ noted)}")


def estimates(tests):
    """After each crate the time of the whole run is estimated well."""
    log = content(f"{tests.program}/log").decode()
    os.mkdir("tools")
    write("crates.txt", content(f"{tests.program}/crates"))
    write("tools/seconds.txt", content(f"{tests.program}/seconds"))
    build.ROOT = os.getcwd()
    build.noted_seconds.cache_clear()
    build.seconds_of.cache_clear()
    count, jobs = (int(it) for it in HEAD.search(log).groups())
    found = LINE.findall(log)
    lines = [(60 * int(minutes) + int(rest), name, int(seconds)) for minutes, rest, name, seconds in found]
    names = [name for _, name, _ in lines]
    tests.tell("the log is of a whole run", len(names) == count and count > 20, f"{len(names)} of {count}")
    crates = build.read_crates()
    noted = build.noted_seconds()
    tests.tell("each crate has its seconds", set(names) <= set(noted), f"{set(names) - set(noted)}")
    differ = any(noted.get(name) != seconds for _, name, seconds in lines)
    tests.tell("the seconds are of another run", differ, "all are the same")
    took = lines[-1][0]
    estimate = build.Estimate(crates, names, jobs)
    first = abs(estimate.total() - took) / took
    tests.tell("the estimate at the start", first <= WRONG, f"{estimate.total():.0f} s, where it took {took} s")
    for _, name, seconds in lines:
        estimate.add(name, seconds)
        wrong = abs(estimate.total() - took) / took
        tests.tell(f"the estimate after {name}", wrong <= WRONG, f"{estimate.total():.0f} s, where it took {took} s")


def main():
    return Tests("estimate", program_of(sys.argv, __doc__)).main([table, estimates])


if __name__ == "__main__":
    sys.exit(main())
