#!/usr/bin/env python3
"""How much memory long JSON texts take that are refused, or have long values of which nothing is kept.

usage: tests/long_texts.py PROGRAM

Each text is also tried with short values, and has to have the same outcome. A refusal is explained too, from a file and
from a pipe. The last line is 'N passed, M failed'.
"""
import math
import os
import re
import subprocess
import sys
from typing import Callable, NamedTuple

from harness import ROOT, VALGRIND, Tests, content, instructions, program_of, write

sys.path.append(f"{ROOT}/bench")
from bench import Runner  # noqa: E402

# Types are numbered A 0, P 1, Q 2, B 3, W 4, E 5, T 6, and T's slots from v 0 to list 14.
SCHEMA = b"""
table A { a:int; }
struct P { x:int; y:int; }
struct Q { p:P; n:int; }
table B { v:[A]; w:W; }
union W { A, B }
enum E : byte { Red, Green }
table T {
  v:[A]; name:string; n:int; p:P; u:W; old:[A] (deprecated); numbers:[int]; points:[P]; names:[string]; e:E; a:A; q:Q;
  boxes:[Q]; list:[B];
}
root_type T;
"""
# Bytes of a long value, and of a short one.
LONG, SHORT = 10_000_000, 80
# Of a text whose instructions are counted.
COUNTED = 1_000_000
# How many times text and buffer a run takes at most.
MOST = 3
# A buffer of tables, numbers and structs has so many times the bytes of their text; one of which nothing is kept, none.
TABLES, NUMBERS, NOTHING = 1.5, 2, 0
# A buffer has as many bytes of a string as its text.
STRING = 1
# How many times the processor time of a right text, or its instructions, one takes that is refused.
TIMES = 1.3
RUNS = 5
PLACE = re.compile(r"long\.json:[0-9]+:[0-9]+: ")
IGNORING = ("--unknown-json",)

BAD = "113 BadJson"
UNKNOWN = "74 UnknownMember in type 6"
MISMATCH = "77 UnionMismatch in type 6 slot 5"
STRANGE = "74 UnknownMember in type 1"
FIELD = "70 WrongShape in type 1 slot 0"


def shape(slot):
    return f"70 WrongShape in type 6 slot {slot}"


def repeated(element, last=None):
    """An array of as many elements as have about so many bytes, and then another one."""
    return lambda size: b"[" + b",".join([element] * (size // (len(element) + 1)) + ([last] if last else [])) + b"]"


TABLE, PAIR = b'{"a":1}', b"[1,2]"
tables, pairs = repeated(TABLE), repeated(PAIR)


def members(size):
    return b"{" + b",".join(b'"m%d":1' % number for number in range(size // 12)) + b"}"


def string(size):
    return b'"' + b"x" * size + b'"'


def blanks(size):
    return b"[" + b" " * size + b"]"


def nested(depth):
    return b"[" * depth + b"]" * depth


def text(before, value, after):
    """A text with a long value in it."""
    return lambda size: before + value(size) + after


def member(name, value):
    return text(b'{"' + name + b'":', value, b"}")


def in_member(value):
    """A text with a long value as the vector of a union's member."""
    return text(b'{"u_type":"B","u":{"v":', value, b"}}")


# What is no JSON, as the value of a member or element.
BROKEN = (
    ("a zero before a digit", b"01"),
    ("a number that is too large", b"1e999"),
    ("a number of 400 digits", b"9" * 400),
    ("a bad escape", b'"\\x"'),
    ("a lone surrogate", b'"\\ud800"'),
    ("no UTF-8", b'"\xff"'),
    ("too many brackets", nested(127)),
)
# Where a long value stands that is checked without a tree: what is before it and after it, and flags.
CHECKED = (
    ("an unknown member", b'{"z":', b"}", ()),
    ("an ignored member", b'{"z":', b"}", IGNORING),
    ("an ignored deprecated field", b'{"old":', b"}", IGNORING),
    ("a value for a number", b'{"n":', b"}", ()),
    ("a value for a string", b'{"name":', b"}", ()),
    ("the first of two values", b'{"v":', b',"v":[]}', ()),
    ("a member without its code", b'{"u":', b"}", ()),
    ("a value after a fault", b'{"name":1,"v":', b"}", ()),
    ("an element for a number", b'{"numbers":[1,', b"]}", ()),
    ("an element for a struct", b'{"points":[', b"]}", ()),
    ("an element for a string", b'{"names":[', b"]}", ()),
    ("an unknown member of a struct", b'{"p":{"x":1,"y":2,"z":', b"}}", ()),
    ("an ignored member of a struct", b'{"p":{"x":1,"y":2,"z":', b"}}", IGNORING),
    ("a field of a struct", b'{"p":{"x":', b',"y":2}}', ()),
    ("the root", b"", b"", ()),
)
class Row(NamedTuple):
    """A text with a long value."""

    name: str
    # the text for a size of its long value
    of_size: Callable[[int], bytes]
    # the line of its refusal; it is empty if the text is converted
    line: str = ""
    # how many times its text a buffer without the fault has
    share: float = TABLES
    flags: tuple = ()
    # a text with the same buffer
    same: bytes = b""


ROWS = [
    Row("a vector of tables", member(b"v", tables)),
    Row("a vector of numbers", member(b"numbers", repeated(b"7")), share=NUMBERS),
    Row("a vector of structs", member(b"points", repeated(b'{"x":1,"y":2}')), share=NUMBERS),
    Row("a vector of strings", member(b"names", repeated(b'"some words"'))),
    Row("a string", member(b"name", string), share=STRING),
    Row("a string in a vector", text(b'{"names":["a",', string, b"]}"), share=STRING),
    Row("an array of blanks", member(b"v", blanks), share=NOTHING, same=b'{"v":[]}'),
    Row("an array of blanks for numbers", member(b"numbers", blanks), share=NOTHING, same=b'{"numbers":[]}'),
    Row("an array of blanks for a number", member(b"n", blanks), shape(2), share=NOTHING),
    Row(
        "an array of blanks before a vector",
        text(b'{"v":' + blanks(20_000) + b',"numbers":', repeated(b"7"), b"}"),
        share=NUMBERS,
    ),
    Row("the last byte is missing", text(b'{"v":', tables, b""), BAD),
    Row("it ends within the vector", text(b'{"v":', lambda size: tables(size)[:-size // 2], b""), BAD),
    Row("it ends within a string", text(b'{"v":', tables, b',"name":"Or'), BAD),
    Row("a comma too many", text(b'{"v":', tables, b",}"), BAD),
    Row("a comma too many in the vector", text(b'{"v":', lambda size: tables(size)[:-1] + b",]", b"}"), BAD),
    Row("no comma", text(b'{"v":', tables, b'"n":1}'), BAD),
    Row("no colon", text(b'{"v":', tables, b',"n" 1}'), BAD),
    Row("another closing bracket", text(b'{"v":', lambda size: tables(size)[:-1] + b"}", b"}"), BAD),
    Row("a bracket too many", text(b'{"v":', tables, b"]}"), BAD),
    Row("a brace too many", text(b'{"v":', tables, b"}}"), BAD),
    Row("a value after it", text(b'{"v":', tables, b"} 1"), BAD),
    Row("too many brackets in an element", member(b"v", repeated(TABLE, b'{"a":' + nested(126) + b"}")), BAD),
    Row(
        "too many brackets in a union's member",
        text(b'{"u_type":"B","u":{"v":', tables, b',"w":' + nested(127) + b"}}"),
        BAD,
    ),
    Row("as many brackets as JSON has", text(b'{"v":', tables, b',"z":' + nested(126) + b"}"), UNKNOWN),
    Row("as many brackets as JSON has, ignored", text(b'{"v":', tables, b',"z":' + nested(126) + b"}"), flags=IGNORING),
    Row("an unknown name at the end", text(b'{"v":', tables, b',"z":1}'), UNKNOWN),
    Row("an unknown name at the start", text(b'{"z":1,"v":', tables, b"}"), UNKNOWN),
    Row("a number for the last table", member(b"v", repeated(TABLE, b"1")), shape(0)),
    Row("a number for the first table", text(b'{"v":[1,', lambda size: tables(size)[1:], b"}"), shape(0)),
    Row("an array for the last table", member(b"v", repeated(TABLE, b"[]")), shape(0)),
    Row("an unknown array", member(b"z", tables), UNKNOWN, share=NOTHING),
    Row("an unknown object", member(b"z", members), UNKNOWN, share=NOTHING),
    Row("an unknown string", member(b"z", string), UNKNOWN, share=NOTHING),
    Row("an unknown array, ignored", member(b"z", tables), share=NOTHING, flags=IGNORING, same=b"{}"),
    Row("an unknown object, ignored", member(b"z", members), share=NOTHING, flags=IGNORING, same=b"{}"),
    Row("an unknown string, ignored", member(b"z", string), share=NOTHING, flags=IGNORING, same=b"{}"),
    Row("an unknown array in a table", text(b'{"a":{"z":', tables, b"}}"), "74 UnknownMember in type 0", share=NOTHING),
    Row(
        "an unknown array in a table, ignored",
        text(b'{"a":{"z":', tables, b"}}"),
        share=NOTHING,
        flags=IGNORING,
        same=b'{"a":{}}',
    ),
    Row(
        "an unknown array in a table of a vector, ignored",
        text(b'{"v":[{"a":1,"z":', tables, b"}]}"),
        share=NOTHING,
        flags=IGNORING,
        same=b'{"v":[{"a":1}]}',
    ),
    Row("an array for a number", member(b"n", tables), shape(2), share=NOTHING),
    Row("an object for a number", member(b"n", members), shape(2), share=NOTHING),
    Row("a string for a number", member(b"n", string), shape(2), share=NOTHING),
    Row("a string for a struct", member(b"p", string), shape(3), share=NOTHING),
    Row("a string for a table", member(b"a", string), shape(11), share=NOTHING),
    Row("a string for a vector", member(b"v", string), shape(0), share=NOTHING),
    Row("a string in a vector of numbers", text(b'{"numbers":[1,', string, b",2]}"), shape(7), share=NOTHING),
    Row("a string in a vector of structs", text(b'{"points":[', string, b"]}"), shape(8), share=NOTHING),
    Row("a string in a vector of tables", text(b'{"v":[{},', string, b"]}"), shape(0), share=NOTHING),
    Row("a string for a union's member", text(b'{"u_type":"A","u":', string, b"}"), shape(5), share=NOTHING),
    Row("an array for a string", member(b"name", pairs), shape(1), share=NOTHING),
    Row("an object for a string", member(b"name", members), shape(1), share=NOTHING),
    Row("an array for an enum", member(b"e", pairs), shape(10), share=NOTHING),
    Row("an array for a struct", member(b"p", pairs), shape(3), share=NOTHING),
    Row("an array for a table", member(b"a", pairs), shape(11), share=NOTHING),
    Row("an object for a vector", member(b"v", members), shape(0), share=NOTHING),
    Row("an array for a code", member(b"u_type", pairs), shape(4), share=NOTHING),
    Row("an array in a vector of numbers", text(b'{"numbers":[1,', pairs, b",2]}"), shape(7), share=NOTHING),
    Row("an object in a vector of numbers", text(b'{"numbers":[1,', members, b",2]}"), shape(7), share=NOTHING),
    Row("an array in a vector of structs", text(b'{"points":[', pairs, b"]}"), shape(8), share=NOTHING),
    Row("an array in a vector of strings", text(b'{"names":["a",', pairs, b"]}"), shape(9), share=NOTHING),
    Row("an object in a vector of strings", text(b'{"names":["a",', members, b"]}"), shape(9), share=NOTHING),
    Row("an array in a vector of tables", text(b'{"v":[{},', pairs, b"]}"), shape(0), share=NOTHING),
    Row("a deprecated field", member(b"old", tables), UNKNOWN, share=NOTHING),
    Row("a deprecated field, ignored", member(b"old", tables), share=NOTHING, flags=IGNORING, same=b"{}"),
    Row("the first of two values", text(b'{"v":', tables, b',"v":[]}'), share=NOTHING, same=b'{"v":[]}'),
    Row("the second of two values", text(b'{"v":[],"v":', tables, b"}")),
    Row("an array as root", tables, "70 WrongShape in type 6", share=NOTHING),
    Row("a string as root", string, "70 WrongShape in type 6", share=NOTHING),
    Row("a union's member", in_member(tables)),
    Row("a union's member by its number", text(b'{"u_type":2,"u":{"v":', tables, b"}}")),
    Row("a union's member before its code", text(b'{"u":{"v":', tables, b'},"u_type":"B"}')),
    Row("a union in a union", text(b'{"u_type":"B","u":{"w_type":"B","w":{"v":', tables, b"}}}")),
    Row("a union in a table of a vector", text(b'{"list":[{"w_type":"B","w":{"v":', tables, b"}}]}")),
    Row(
        "a fault in a union in a table of a vector",
        text(b'{"list":[{},{"w":{"v":', repeated(TABLE, b"1"), b'},"w_type":"B"}]}'),
        "70 WrongShape in type 3 slot 0",
    ),
    Row("a union's member without its code", text(b'{"u":{"v":', tables, b"}}"), MISMATCH, share=NOTHING),
    Row("a union's member with no code", text(b'{"u_type":"NONE","u":{"v":', tables, b"}}"), MISMATCH, share=NOTHING),
    Row(
        "a union's member with an unknown code",
        text(b'{"u_type":"C","u":{"v":', tables, b"}}"),
        "73 UnknownName in type 6 slot 4",
        share=NOTHING,
    ),
    Row(
        "a union's member with null for its code",
        text(b'{"u_type":null,"u":{"v":', tables, b"}}"),
        MISMATCH,
        share=NOTHING,
    ),
    Row("an array for a union's member", text(b'{"u_type":"A","u":', pairs, b"}"), shape(5), share=NOTHING),
    Row("an unknown array in a struct", text(b'{"p":{"x":1,"y":2,"z":', pairs, b"}}"), STRANGE, share=NOTHING),
    Row(
        "an unknown array in a struct, ignored",
        text(b'{"p":{"x":1,"y":2,"z":', pairs, b"}}"),
        share=NOTHING,
        flags=IGNORING,
        same=b'{"p":{"x":1,"y":2}}',
    ),
    Row("an unknown object in a struct", text(b'{"p":{"z":', members, b',"x":1,"y":2}}'), STRANGE, share=NOTHING),
    Row("an unknown string in a struct", text(b'{"p":{"x":1,"y":2,"z":', string, b"}}"), STRANGE, share=NOTHING),
    Row(
        "an unknown array in a vector of structs",
        text(b'{"points":[{"x":1,"y":2,"z":', pairs, b"}]}"),
        STRANGE,
        share=NOTHING,
    ),
    Row(
        "an unknown array in a vector of structs, ignored",
        text(b'{"points":[{"x":1,"y":2},{"x":3,"z":', pairs, b',"y":4},{"x":5,"y":6}]}'),
        share=NOTHING,
        flags=IGNORING,
        same=b'{"points":[{"x":1,"y":2},{"x":3,"y":4},{"x":5,"y":6}]}',
    ),
    Row(
        "an unknown array in a struct of a struct",
        text(b'{"q":{"p":{"x":1,"y":2,"z":', pairs, b'},"n":3}}'),
        STRANGE,
        share=NOTHING,
    ),
    Row(
        "an unknown array in structs of a vector, ignored",
        text(b'{"boxes":[{"n":3,"p":{"x":1,"z":', pairs, b',"y":2}}]}'),
        share=NOTHING,
        flags=IGNORING,
        same=b'{"boxes":[{"n":3,"p":{"x":1,"y":2}}]}',
    ),
    Row("an array for a field of a struct", text(b'{"p":{"x":', pairs, b',"y":2}}'), FIELD, share=NOTHING),
    Row("a string for a field of a struct", text(b'{"p":{"x":', string, b',"y":2}}'), FIELD, share=NOTHING),
    Row(
        "an array for a struct of a struct",
        text(b'{"q":{"p":', pairs, b',"n":3}}'),
        "70 WrongShape in type 2 slot 0",
        share=NOTHING,
    ),
    Row(
        "a field of a struct that comes again",
        text(b'{"p":{"x":', pairs, b',"x":1,"y":2}}'),
        share=NOTHING,
        same=b'{"p":{"x":1,"y":2}}',
    ),
    Row(
        "a struct without a field, and an ignored array",
        text(b'{"p":{"x":1,"z":', pairs, b"}}"),
        "75 MissingMember in type 1 slot 1",
        share=NOTHING,
        flags=IGNORING,
    ),
    Row(
        "a number that is too large in a struct, and an ignored array",
        text(b'{"p":{"x":1,"z":', pairs, b',"y":3000000000}}'),
        "72 OutOfRange in type 1 slot 1",
        share=NOTHING,
        flags=IGNORING,
    ),
    Row("a comma too many in a struct", text(b'{"p":{"x":1,"y":2,"z":', pairs, b",}}"), BAD, share=NOTHING),
    Row("a fault in a union's member", in_member(repeated(TABLE, b"1")), "70 WrongShape in type 3 slot 0"),
    Row(
        "an unknown array in a union's member",
        text(b'{"u_type":"A","u":{"z":', tables, b"}}"),
        "74 UnknownMember in type 0",
        share=NOTHING,
    ),
]
for what, value in BROKEN:
    broken = repeated(TABLE, b'{"a":' + value + b"}")
    ROWS += [
        Row(f"{what}, at the start", text(b'{"n":' + value + b',"v":', tables, b"}"), BAD),
        Row(f"{what}, in the middle", text(b'{"v":', tables, b',"n":' + value + b',"names":["a"]}'), BAD),
        Row(f"{what}, at the end", text(b'{"v":', tables, b',"n":' + value + b"}"), BAD),
        Row(f"{what}, in the last table", member(b"v", broken), BAD),
        Row(f"{what}, in a union's member", in_member(broken), BAD),
    ]
    for where, before, after, flags in CHECKED:
        checked = text(before, repeated(PAIR, value), after)
        ROWS.append(Row(f"{what}, in {where}", checked, BAD, share=NOTHING, flags=flags))


class Taken:
    """Runs a program by bench/runner.c, and says how it ended and what it took."""

    def __init__(self, program):
        self.program = program
        self.runner = Runner(".").program

    def of(self, words, stdin=subprocess.DEVNULL):
        """The status and the line of a refusal; the seconds of processor time; the peak in KiB."""
        streams = {"stdin": stdin, "stdout": subprocess.PIPE, "stderr": subprocess.PIPE}
        done = subprocess.run([self.runner, self.program, *words], text=True, check=False, **streams)
        *lines, figures = done.stderr.splitlines()
        seconds, _, peak = figures.split()
        return (done.returncode, "\n".join(lines)), float(seconds), int(peak)


def clear(path):
    if os.path.exists(path):
        os.remove(path)


def try_row(tests, taken, nothing, row):
    """The outcome of a text with short values, and the same one of a long text, in little memory."""
    words = ["binary", *row.flags, "s.fbs"]
    want = (1 if row.line else 0, row.line)
    write("short.json", row.of_size(SHORT))
    outcome, _, _ = taken.of([*words, "short.json", "short.bin"])
    tests.tell(f"{row.name}, short", outcome == want, f"{outcome}, not {want}")
    json = row.of_size(LONG)
    write("long.json", json)
    clear("long.bin")
    outcome, seconds, peak = taken.of([*words, "long.json", "long.bin"])
    tests.tell(f"{row.name}, long", outcome == want, f"{outcome}, not {want}")
    tests.tell(f"OUT of {row.name}", os.path.exists("long.bin") != bool(row.line), "is there, or isn't")
    size = len(json) / 1024
    most = nothing + MOST * size * (1 + row.share)
    tests.tell(f"the memory of {row.name}", peak <= most, f"{peak} KiB for {size:.0f} KiB of text, over {most:.0f} KiB")
    if row.line:
        explain_row(tests, taken, most, row)
    if row.same:
        write("same.json", row.same)
        taken.of([*words, "same.json", "same.bin"])
        tests.tell(f"the buffer of {row.name}", content("long.bin") == content("same.bin"), "is another")
    return seconds


def explain_row(tests, taken, most, row):
    """The explanation of a long text that is refused: it has a place, takes no more, and is the same from a pipe."""
    words = ["binary", "--explain", *row.flags, "s.fbs"]
    outcome, _, peak = taken.of([*words, "long.json", "long.bin"])
    status, text = outcome
    good = status == 1 and text.startswith(f"{row.line}\nlong.json:") and PLACE.match(text.split("\n")[1])
    tests.tell(f"the explanation of {row.name}", good, f"{outcome}")
    tests.tell(f"the memory of explaining {row.name}", peak <= most, f"{peak} KiB, over {most:.0f} KiB")
    with subprocess.Popen(["cat", "long.json"], stdout=subprocess.PIPE) as cat:
        piped, _, peak = taken.of([*words, "/dev/stdin", "long.bin"], stdin=cat.stdout)
    same = (status, text.replace("long.json:", "/dev/stdin:", 1))
    tests.tell(f"{row.name}, explained from a pipe", piped == same, f"{piped}, not {same}")
    most += 2 * LONG / 1024
    tests.tell(f"the memory of explaining {row.name} from a pipe", peak <= most, f"{peak} KiB, over {most:.0f} KiB")


def words_of(number, row, size):
    """A line that converts a row's text of a size."""
    write(f"row{number}.json", row.of_size(size))
    return ["binary", *row.flags, "s.fbs", f"row{number}.json", "long.bin"]


def least_of(taken, *rows):
    """The least processor time of each of some texts, whose runs take turns: on a busy machine one may be slow."""
    lines = [words_of(number, row, LONG) for number, row in enumerate(rows)]
    least = [math.inf] * len(rows)
    for _ in range(RUNS):
        for number, line in enumerate(lines):
            _, seconds, _ = taken.of(line)
            least[number] = min(least[number], seconds)
    return least


def costs_of(taken, *rows):
    """What each of some texts takes: the instructions of shorter ones, where valgrind counts them, else the time."""
    if not VALGRIND:
        return [(seconds, "s") for seconds in least_of(taken, *rows)]
    lines = [words_of(number, row, COUNTED) for number, row in enumerate(rows)]
    return [(instructions([taken.program, *line])[1], "instructions") for line in lines]


def try_rows(tests):
    write("s.fbs", SCHEMA)
    write("none.json", b"{}")
    taken = Taken(tests.program)
    _, _, nothing = taken.of(["binary", "s.fbs", "none.json", "none.bin"])
    seconds = {row.name: try_row(tests, taken, nothing, row) for row in ROWS}
    (right,) = least_of(taken, ROWS[0])
    for row in ROWS:
        if row.line:
            (took, unit), beside = (seconds[row.name], "s"), right
            if took > TIMES * right:
                (took, unit), (beside, _) = costs_of(taken, row, ROWS[0])
            good = 0 < took <= TIMES * beside
            tests.tell(f"the time of {row.name}", good, f"{took} {unit}, and {beside} of a right text")


def by_pipe(tests):
    """A text from a pipe takes as much."""
    write("s.fbs", SCHEMA)
    write("cut.json", b'{"v":' + tables(LONG))
    taken = Taken(tests.program)
    _, _, from_file = taken.of(["binary", "s.fbs", "cut.json", "out.bin"])
    with subprocess.Popen(["cat", "cut.json"], stdout=subprocess.PIPE) as cat:
        outcome, _, peak = taken.of(["binary", "s.fbs", "-", "out.bin"], stdin=cat.stdout)
    tests.tell("a pipe's outcome", outcome == (1, BAD), f"{outcome}")
    tests.tell("a pipe's memory", peak <= from_file + 2 * LONG / 1024, f"{peak} KiB, {from_file} KiB from a file")


def main():
    tests = Tests("long texts", program_of(sys.argv, __doc__))
    return tests.main([try_rows, by_pipe])


if __name__ == "__main__":
    sys.exit(main())
