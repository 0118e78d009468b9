#!/usr/bin/env python3
"""Each growth of the heap refused in each call that takes memory: one alone, and all from one on. And the stack that
calls take on what is nested deep.

usage: tests/growths.py PROGRAM

PROGRAM is built of crates/test_hostile, which makes one call on one example and then the same call again;
tests/refuse.c, preloaded, refuses growths of the first. The C compiler has to be there (cc, or what CC names). The last
line is 'N passed, M failed'.
"""
import os
import resource
import sys
from concurrent.futures import ThreadPoolExecutor

from harness import Tests, content, program_of
from hostile import refusing, shim

EXAMPLES = ("tables", "structs", "union")
# Each call, and the numbers that its fault of memory may have; 0 is an error without a number.
SCHEMA = {7, 23, 32}
CALLS = {
    "parse": {7},
    "declare": {23},
    "lay": {32},
    "schema_of": SCHEMA,
    "copy": {0},
    "plan": {41},
    "build": {41},
    "read": {64},
    "value_of": {80},
    "text_of": {84},
    "carry": {0},
    "encode": {114, 80, 41},
    "encode_plan": {114, 80, 41},
    "encode_pieces": {114, 41},
    "decode": {84},
    "to_binary": SCHEMA | {114, 80, 41},
    "to_json": SCHEMA | {84},
    "print_to": SCHEMA,
    "check": SCHEMA,
    "conform_texts": SCHEMA,
    "conform_names": SCHEMA | {114},
    "take_all": {114},
    "request_of": {0},
    "fault_line": {0},
    "fault_path": {0},
    "json_fault_path": {0},
    "text_fault_path": {0},
    "all_breaches": {0},
    "explain_json": {0},
    "explain_bytes": {0},
    "explain_schema": {0},
}
NONE = "memoryless"
MOST = 20_000
# Calls on what is nested deep: tables made of JSON and printed, at the deepest limits, and a struct that is read, or
# copied too, and dropped; how deep, and a stack in KiB that is enough.
DEEP = (("tables", 127, 256), ("read", 1000, 768), ("copy", 1000, 1024), ("read", 10_000, 8192), ("copy", 10_000, 8192))


def outcome(tests, library, call, example, wish):
    """What the call came to and its status, and how many growths were counted and refused."""
    counts = f"{call}-{example}.count"
    done = tests.run([call, example], env=refusing(library, wish, counts) | {"REFUSE_ARMED": "1"})
    counted, refused = map(int, content(counts).split())
    line = done.stdout.decode().replace("armed\n", "", 1).replace("disarmed\n", "", 1)
    return (line.strip(), done.returncode, done.stderr), counted, refused


def refuse_each(tests, library, call, example):
    """Refuses each growth of a call; returns how many there are, and the numbers that were met."""
    right = (f"{call} {example}: right, then right", 0, b"")
    short = {(f"{call} {example}: memory {number}, then right", 0, b""): number for number in CALLS[call]}
    found, total, refused = outcome(tests, library, call, example, "0")
    tests.tell(f"{call} of {example} with its growths counted", found == right and refused == 0, f"{found}")
    numbers = set()
    for n in range(1, MOST):
        ended = 0
        for wish in (f"{n}", f"{n}+"):
            found, _, refused = outcome(tests, library, call, example, wish)
            if refused == 0:
                ended += 1
                tests.tell(f"{call} of {example} with {wish}, which isn't reached", found == right, f"{found}")
            else:
                numbers.add(short.get(found))
                tests.tell(f"{call} of {example} with growth {wish} refused", found in short, f"{found}")
        if ended == 2:
            tests.tell(f"the growths of {call} of {example}", n == total + 1, f"{n - 1} refused, {total} counted")
            break
    return call, total, numbers


def growths(tests):
    library = shim()
    totals = {call: [] for call in CALLS}
    met = {call: set() for call in CALLS}
    with ThreadPoolExecutor(os.cpu_count()) as pool:
        rows = [pool.submit(refuse_each, tests, library, call, example) for call in CALLS for example in EXAMPLES]
        for row in rows:
            call, total, numbers = row.result()
            totals[call].append(total)
            met[call] |= numbers
    for call, numbers in CALLS.items():
        tests.tell(f"each fault of memory of {call} was met", met[call] == numbers, f"{met[call]}, not {numbers}")
        tests.tell(f"{call} takes memory", max(totals[call]) > 0)
    print("growths: " + ", ".join(f"{call} {' + '.join(map(str, counts))}" for call, counts in totals.items()))
    for example in EXAMPLES:
        found, counted, _ = outcome(tests, library, NONE, example, "1+")
        right = (f"{NONE} {example}: right, then right", 0, b"")
        tests.tell(f"the calls without memory of {example}", found == right and counted == 0, f"{found}, {counted}")


def stack(tests):
    for call, levels, most in DEEP:

        def limit(most=most):
            resource.setrlimit(resource.RLIMIT_STACK, (most * 1024, most * 1024))

        tests.expect(f"{call} {levels} deep in {most} KiB", ["deep", call, str(levels)], 0, preexec_fn=limit)


def main():
    tests = Tests("growths", program_of(sys.argv, __doc__))
    return tests.main((growths, stack))


if __name__ == "__main__":
    sys.exit(main())
