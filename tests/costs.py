#!/usr/bin/env python3
"""How the cost of the built program grows: twice the input takes at most 2.2 times the instructions.

usage: tests/costs.py PROGRAM

valgrind counts the instructions where it is there; else it is the user time of larger inputs, the least of some runs,
with more slack. The last line is 'N passed, M failed'.
"""
import os
import subprocess
import sys

import crafted_names
from harness import VALGRIND, Tests, instructions, program_of, write

MOST = 2.2 if VALGRIND else 2.9
# How many times as large an input is where times are taken, and how many runs.
TIMED = 10
RUNS = 5


def defaults_changed(count):
    """A table of ten fields for each ten breaches, each field on a line of its own."""
    def text(default):
        fields = "".join(f"  f{k}:int = {default};\n" for k in range(10))
        return "".join(f"table Row{k} {{\n{fields}}}\n" for k in range(count // 10)) + "root_type Row0;\n"

    return text(1), text(2)


def fields_changed(count):
    """The same in one table."""
    def text(default):
        return "table T {\n" + "".join(f"  f{k}:ubyte = {default};\n" for k in range(count)) + "}\nroot_type T;\n"

    return text(1), text(2)


def fields_renamed(count):
    def text(name):
        return "table T {\n" + "".join(f"  {name}{k}:ubyte;\n" for k in range(count)) + "}\nroot_type T;\n"

    return text("a"), text("b")


def fields_rotated(count):
    """Each name stands for the field before."""
    def text(first):
        names = "".join(f"  f{(first + k) % count}:ubyte;\n" for k in range(count))
        return "table T {\n" + names + "}\nroot_type T;\n"

    return text(0), text(1)


def comments_ahead(count):
    """Many short lines before some tables."""
    def text(default):
        tables = "".join(f"table Row{k} {{ a:int = {default}; }}\n" for k in range(count // 50))
        return "// a comment\n" * count + tables + "root_type Row0;\n"

    return text(1), text(2)


def types_gone(count):
    old = "".join(f"table Row{k} {{ a:int; }}\n" for k in range(count)) + "table R { a:int; }\nroot_type R;\n"
    return old, "table R { a:int; }\nroot_type R;\n"


# What is compared, how much of it is at first, and the status.
ROWS = (
    ("breaches in many tables", defaults_changed, 2000, 1),
    ("breaches in one table", fields_changed, 2000, 1),
    ("renamed fields", fields_renamed, 2000, 0),
    ("rotated fields", fields_rotated, 2000, 0),
    ("comments and tables behind them", comments_ahead, 10_000, 1),
    ("types that are gone", types_gone, 2000, 1),
)


def seconds(words):
    """The status and the least user time of some runs."""
    least = None
    for _ in range(RUNS):
        nothing = subprocess.DEVNULL
        with subprocess.Popen(words, stdin=nothing, stdout=nothing, stderr=nothing) as run:
            _, status, usage = os.wait4(run.pid, 0)
            run.returncode = os.waitstatus_to_exitcode(status)
        least = usage.ru_utime if least is None else min(least, usage.ru_utime)
    return run.returncode, least


def grows(tests, what, make, count, words, status, timed=TIMED):
    """Twice as much costs little more than twice as much; `make` writes the files of a size."""
    costs = []
    for size in (count, 2 * count) if VALGRIND else (timed * count, 2 * timed * count):
        make(size)
        ended, cost = instructions(words) if VALGRIND else seconds(words)
        tests.tell(f"{what}: the status at {size}", ended == status, f"{ended}")
        costs.append(cost)
    grown = costs[1] / max(costs[0], 1e-9)
    tests.tell(f"the cost of twice as many {what}", costs[0] > 0 and grown <= MOST, f"{grown:.2f} times: {costs}")
    print(f"costs: twice as many {what}: {grown:.2f} times", flush=True)


def comparisons(tests):
    """`conform --explain` of many breaches, or of many names that moved."""
    words = [tests.program, "conform", "--explain", "old.fbs", "new.fbs"]
    for what, texts, count, status in ROWS:
        def make(size, texts=texts):
            for name, text in zip(("old.fbs", "new.fbs"), texts(size)):
                write(name, text.encode())

        grows(tests, what, make, count, words, status)


def unsupported(tests):
    """`check --explain` of a schema with many places that aren't supported, of which each is told."""
    def make(size):
        fields = "".join(f"  f{k}:float;\n" for k in range(size))
        write("s.fbs", f"table T {{\n{fields}}}\nroot_type T;\n".encode())

    grows(tests, "floats", make, 2000, [tests.program, "check", "--explain", "s.fbs"], 1)


def many(count, line):
    return "".join(line.format(k) for k in range(count))


# Schema texts that are refused: what there is much of, a text, and how much at first.
SCHEMAS = (
    ("types before one that isn't there",
     lambda n: many(n, "table Row{0} {{ a:int; }}\n") + "table T { a:Rwo1; }\nroot_type T;",
     4000),
    ("ids before a gap",
     lambda n: "table T {\n" + many(n, "  f{0}:ubyte (id: {0});\n") + f"  g:int (id: {n + 1});\n}}\n"
     "root_type T;", 4000),
    ("values before a number twice",
     lambda n: "enum E:ulong {\n" + many(n, "  V{0},\n") + "  W = 0 }\ntable T { e:E; }\n"
     "root_type T;", 4000),
    ("structs before one in itself",
     lambda n: many(n, "struct S{0} {{ a:int; }}\n") + "struct S { s:S; }\ntable T { s:S; }\n"
     "root_type T;", 4000),
)


def schemas(tests):
    """`check --explain` of a schema that is refused at its end."""
    for what, text_of, count in SCHEMAS:
        def make(size, text_of=text_of):
            write("s.fbs", text_of(size).encode())

        grows(tests, what, make, count, [tests.program, "check", "--explain", "s.fbs"], 1)


def namespaces(tests):
    """`check` of a schema with many namespaces, each with a type of its own, under many types that they take over."""
    def make(size):
        outer = many(size, "table Row{0} {{ a:int; }}\n") + "table All {\n" + many(size, "  f{0}:Row{0};\n") + "}\n"
        inner = many(size, "namespace N{0};\ntable T {{ t:T; r:Row{0}; }}\n")
        write("s.fbs", f"{outer}{inner}namespace;\nroot_type All;".encode())

    grows(tests, "namespaces under outer types", make, 2000, [tests.program, "check", "s.fbs"], 0, timed=5)


def json_texts(tests):
    """`binary --explain` of a text with many members: the last is unknown, or isn't JSON there."""
    words = [tests.program, "binary", "--explain", "s.fbs", "v.json", "out.bin"]
    for what, last in (("members before an unknown one", '"f": 1 }'), ("members before what isn't JSON", '"f": 01 }')):
        def make(size, last=last):
            write("s.fbs", ("table T {\n" + many(size, "  f{0}:int;\n") + "}\nroot_type T;\n").encode())
            write("v.json", ("{\n" + many(size, '  "f{0}": 1,\n') + last).encode())

        grows(tests, what, make, 2000, words, 1, timed=5)


# Names that collide: what they are of, a schema of such names, half of how many there are, and the path that their
# hash begins with, if it does.
CRAFTED = (
    ("enum values", crafted_names.enum_values, 40_000, None),
    ("fields", crafted_names.fields, 25_000, None),
    ("types", crafted_names.types, 25_000, 0),
)
# For which key the names were made: none, that of nothing, or that of a text that isn't this one.
KEYS = (
    ("without a key", crafted_names.UNKEYED),
    ("under the key of nothing", crafted_names.key_of(b"")),
    ("under another text's key", crafted_names.key_of(b"table T { a:int; } root_type T;")),
)


def crafted(tests):
    """`check` of a schema whose names were made to have one hash, under a key that isn't the schema's."""
    for what, text_of, count, path in CRAFTED:
        for key, state in KEYS:
            begun = state if path is None else crafted_names.behind_path(state, path)
            some = crafted_names.names(begun, 2 * count)
            hashes = {crafted_names.fold(begun, name.encode()) for name in some[:1000]}
            tests.tell(f"{what} that collide {key}", len(hashes) == 1 and len(set(some)) == 2 * count, f"{len(hashes)}")

            def make(size, text_of=text_of, some=some):
                write("s.fbs", text_of(some[:size]).encode())

            grows(tests, f"{what} that collide {key}", make, count, [tests.program, "check", "s.fbs"], 0, timed=1)


if __name__ == "__main__":
    parts = (comparisons, unsupported, schemas, namespaces, json_texts, crafted)
    sys.exit(Tests("costs", program_of(sys.argv, __doc__)).main(parts))
