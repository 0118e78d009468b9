#!/usr/bin/env python3
"""What the built program explains where standard error is a terminal, and where it isn't.

usage: tests/terminal.py PROGRAM

A terminal is a pseudo-terminal here. The last line is 'N passed, M failed'.
"""
import os
import sys
import textwrap

from harness import ONE, SEVEN, Tests, program_of, write

BOLD, RED, PLAIN = "\x1b[1m", "\x1b[1;31m", "\x1b[0m"


def wrapped(line, columns=120):
    """A line that goes on in further ones, set in by four, where it takes more columns."""
    pieces = textwrap.wrap(line, columns, subsequent_indent="    ", break_on_hyphens=False)
    return "".join(f"{piece}\n" for piece in pieces)


WRONG = "table Monster {\n  hp:ubyte = 300;\n}\nroot_type Monster;\n"
LINE = "12 BadDefault at 29\n"
PLACE = "wrong.fbs:2:14"
SENTENCE = ": the default 300 of field 'hp' doesn't fit the type ubyte: 0 to 255"
EXCERPT = " |   hp:ubyte = 300;\n"
CARET = " | " + " " * 13
EXPLAINED = f"{LINE}{PLACE}{SENTENCE}\n{EXCERPT}{CARET}^\n"
COLOURED = f"{LINE}{BOLD}{PLACE}{PLAIN}{SENTENCE}\n{EXCERPT}{CARET}{RED}^{PLAIN}\n"
NARROW = f"{LINE}{wrapped(PLACE + SENTENCE, 60)}{EXCERPT}{CARET}^\n"
OLD = "table U { hp:int; mp:int; }\nroot_type U;\n"
MOVED = "table U { shield:int; hp:int; mp:int; }\nroot_type U;\n"
SHOWN = "buffers of the old schema show the values of"
READ = "to every program that reads by name"
WARNINGS = wrapped(
    f"warning: U.hp was field 0 (old.fbs:1), is field 1 (moved.fbs:1): {SHOWN} hp as shield, {READ}"
) + wrapped(f"warning: U.mp was field 1 (old.fbs:1), is field 2 (moved.fbs:1): {SHOWN} mp as hp, {READ}")
MOVED_LINE = "103 NameMoved in type 0 slot 0\n"
SHORT = "short.bin: 50 Short at 2\n"
SHORT_SENTENCE = "short.bin: the buffer's length is 2: too short for the root's offset and the file identifier\n"
SHORT_BYTES = f" | {0:10} {' 0c 00':<48}  ..\n"

# The words, what is exported, the status, what a terminal shows, and what a pipe gets.
ROWS = [
    ("a refusal", ["check", "wrong.fbs"], {}, 1, COLOURED, LINE),
    ("a refusal with --explain", ["check", "--explain", "wrong.fbs"], {}, 1, COLOURED, EXPLAINED),
    ("a refusal with --terse", ["check", "--terse", "wrong.fbs"], {}, 1, LINE, LINE),
    ("--terse before --explain", ["check", "--terse", "--explain", "wrong.fbs"], {}, 1, LINE, LINE),
    ("--terse behind --explain", ["check", "--explain", "--terse", "wrong.fbs"], {}, 1, LINE, LINE),
    ("NO_COLOR", ["check", "wrong.fbs"], {"NO_COLOR": "1"}, 1, EXPLAINED, LINE),
    ("NO_COLOR that is empty", ["check", "wrong.fbs"], {"NO_COLOR": ""}, 1, COLOURED, LINE),
    ("a terminal without colours", ["check", "wrong.fbs"], {"TERM": "dumb"}, 1, EXPLAINED, LINE),
    ("few columns", ["check", "--explain", "wrong.fbs"], {"NO_COLOR": "1", "COLUMNS": "60"}, 1, NARROW, NARROW),
    ("columns that are none", ["check", "--explain", "wrong.fbs"], {"NO_COLOR": "1", "COLUMNS": "wide"}, 1, EXPLAINED,
     EXPLAINED),
    ("more columns than 120", ["check", "--explain", "wrong.fbs"], {"NO_COLOR": "1", "COLUMNS": "200"}, 1, EXPLAINED,
     EXPLAINED),
    ("names that moved", ["conform", "old.fbs", "moved.fbs"], {}, 0, WARNINGS, ""),
    ("names that moved, with --explain", ["conform", "--explain", "old.fbs", "moved.fbs"], {}, 0, WARNINGS, WARNINGS),
    ("names that moved, with --terse", ["conform", "--terse", "old.fbs", "moved.fbs"], {}, 0, "", ""),
    ("names that moved and are refused, with --explain and --terse",
     ["conform", "--explain", "--names", "--terse", "old.fbs", "moved.fbs"], {}, 1, MOVED_LINE, MOVED_LINE),
    ("no name that moved", ["conform", "old.fbs", "old.fbs"], {}, 0, "", ""),
    ("files that are refused", ["check", "one.fbs", "short.bin", "seven.bin"], {}, 1,
     f"{SHORT}{SHORT_SENTENCE}{SHORT_BYTES} | {' ' * (12 + 3 * 2)}{RED}^^{PLAIN}\n", SHORT),
    ("a job without a refusal", ["check", "one.fbs", "seven.bin"], {}, 0, "", ""),
]


def environment(exported):
    kept = {name: value for name, value in os.environ.items() if name not in ("COLUMNS", "NO_COLOR", "TERM")}
    return {**kept, "TERM": "xterm", **exported}


def rows(tests):
    for name, what in (("wrong.fbs", WRONG), ("old.fbs", OLD), ("moved.fbs", MOVED), ("one.fbs", ONE.decode())):
        write(name, what.encode())
    write("seven.bin", SEVEN)
    write("short.bin", SEVEN[:2])
    for name, words, exported, status, shown, piped in ROWS:
        have = tests.at_terminal(words, env=environment(exported))
        want = status, shown.encode()
        tests.tell(f"{name}, at a terminal", have == want, f"{have!r}, not {want!r}")
        done = tests.run(words, env=environment(exported))
        have = done.returncode, done.stderr
        want = status, piped.encode()
        tests.tell(f"{name}, into a pipe", have == want, f"{have!r}, not {want!r}")


def widths(tests):
    """No line is wider than COLUMNS, and the caret stays under its place."""
    fields = " ".join(f"field_{k}:int;" for k in range(100))
    write("s.fbs", f"table T {{ {fields} last:Missing; {fields} }} root_type T;".encode())
    for columns in (48, 60, 77, 80, 100, 119, 120):
        done = tests.run(["check", "--explain", "s.fbs"], env=environment({"COLUMNS": f"{columns}"}))
        lines = done.stderr.decode().splitlines()
        tests.tell(f"lines of {columns} columns", all(len(it) <= columns for it in lines), f"{lines!r}")
        caret = lines[-1].index("^")
        tests.tell(f"the caret in {columns} columns", lines[-2][caret:].startswith("Missing;"), f"{lines!r}")
    write("b.bin", bytes(range(1, 65)))
    write("one.fbs", ONE)
    for columns, length in ((48, 8), (79, 8), (80, 16)):
        done = tests.run(["check", "--explain", "one.fbs", "b.bin"], env=environment({"COLUMNS": f"{columns}"}))
        lines = done.stderr.decode().splitlines()
        tests.tell(f"bytes in {columns} columns", all(len(it) <= columns for it in lines), f"{lines!r}")
        first = next(it for it in lines if it.startswith(" |          0 "))
        tests.tell(f"{length} bytes a row", len(first) == 16 + 4 * length, f"{lines!r}")


if __name__ == "__main__":
    sys.exit(Tests("terminal", program_of(sys.argv, __doc__)).main([rows, widths]))
