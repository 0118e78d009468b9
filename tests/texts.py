#!/usr/bin/env python3
"""What the built program makes of schema texts and JSON texts: those that are no UTF-8 or cut off, what is printed
again and how it is written, and the greatest values.

usage: tests/texts.py PROGRAM

crates/test_rows has the rows that are schemas, values and faults. The last line is 'N passed, M failed'.
"""
import re
import socket
import subprocess
import sys

from harness import Tests, program_of, write

# A schema with a type of each kind, and a text as it is printed.
EACH = (
    b"enum Color:byte { Red, Green } struct Point { x:short; y:short; } table Name { s:string (required); } "
    b"union Any { Name } table Monster { color:Color = Green; at:Point; names:[Name]; any:Any; hp:int = 100; } "
    b'root_type Monster; file_identifier "MONS";'
)
EACH_TEXT = b"""{
  "color": "Red",
  "at": {
    "x": 1,
    "y": -1
  },
  "names": [
    {
      "s": "a"
    }
  ],
  "any_type": "Name",
  "any": {
    "s": "b"
  }
}
"""
# Schemas, and the compact texts of values under them.
COMPACT = [
    (b"table T { a:int; } root_type T;", b"{}"),
    (b"table T { a:int; b:[ubyte]; c:[int]; } root_type T;", b'{"a":1,"b":[2,3],"c":[]}'),
    (b"table T { s:string; n:[string]; } root_type T;", b'{"s":" a , \\n: b ","n":[""," "]}'),
    (b"struct In { x:short; y:short; } struct S { i:In; j:In; } table T { s:S; ss:[In]; } root_type T;",
     b'{"s":{"i":{"x":1,"y":2},"j":{"x":3,"y":4}},"ss":[{"x":5,"y":6},{"x":7,"y":8}]}'),
    (b"table A { x:int; } union U { A } table T { t:T; u:U; b:bool; } root_type T;",
     b'{"t":{"u_type":"A","u":{}},"u_type":"A","u":{"x":-1},"b":true}'),
    (b"enum F : ubyte (bit_flags) { R, G } table T { f:F; fs:[F]; } root_type T;", b'{"f":"R G","fs":["G",4]}'),
]
# Schema texts that are no UTF-8 from a place on, whatever else is wrong before it.
NO_UTF8 = [
    (b"table\xff", 5), (b"\xef\xbb", 0), (b"# \xff", 2), (b'"\xc3"', 1), (b"// \xe2\x82", 3), (b"; /* \xff", 5),
]
# A schema text with each declaration, and how many of its fronts are texts of declarations: those of no token, and those
# that end behind a declaration, in the blanks and line comments there.
WHOLE = (
    "\ufeffnamespace N.M; // \u00e9\nnamespace ;\nattribute \"a\u00e9\"; attribute b;\n/* * /**/table T (x, y:-1, z:w, "
    'q:"s") {\n  a:int = -0x5F (id:0); b:[N.S]; c:N.E = N.A;\n}\nstruct S () { a:int; }\nenum E:ubyte { A = 1, B, }\n'
    'union U { T, b:N.T, }\nroot_type N.T;\nfile_extension "bin";\nfile_identifier "ABCD"; // end'
).encode()
FRONTS = 34
# The greatest number of a fault of bytes, tokens or the grammar.
MOST_OF_SYNTAX = 7
# Twelve structs, each of two fields of the one before: the last takes 32,768 bytes. The table's struct is never stored
# here, but counts for the table's greatest size, so that few tables have a buffer's greatest room.
WIDE = (
    b"struct S0 { a:ulong; b:ulong; } "
    + b"".join(b"struct S%d { a:S%d; b:S%d; } " % (k, k - 1, k - 1) for k in range(1, 12))
    + b"table N { v:[N]; s:S11; } root_type N;"
)
MOST_TABLES = 65_481
# 20,000 short strings, and a long one behind them; a short piece of their text has up to six bytes.
STRINGS = b"table T { v:[string]; } root_type T;"
SHORT_ONES = b'{\n  "v": [\n' + b'    "abc",\n' * 20_000 + b'    "'
LONG_ONE = b"x" * 100_000
PAGE = 8192


def again(tests):
    """Texts that are printed as they were."""
    write("s.fbs", EACH)
    write("v.json", EACH_TEXT)
    tests.expect("a value with each kind of type", ["binary", "s.fbs", "v.json", "v.bin"], 0)
    tests.expect("its text", ["json", "s.fbs", "v.bin"], 0, EACH_TEXT)
    for schema, text in COMPACT:
        write("s.fbs", schema)
        write("v.json", text)
        tests.expect(f"the buffer of {text}", ["binary", "s.fbs", "v.json", "v.bin"], 0)
        tests.expect(f"the compact text {text}", ["json", "--compact", "s.fbs", "v.bin"], 0, text)


def not_utf8(tests):
    for text, at in NO_UTF8:
        write("s.fbs", text)
        tests.expect(f"no UTF-8: {text}", ["check", "s.fbs"], 1, err=b"1 NotUtf8 at %d\n" % at)


def fronts(tests):
    count = 0
    for end in range(len(WHOLE) + 1):
        write("s.fbs", WHOLE[:end])
        told = tests.run(["check", "s.fbs"]).stderr
        line = re.fullmatch(rb"(\d+) \w+ at (\d+)\n", told)
        tests.tell(f"the first {end} bytes of a schema", line and int(line[2]) <= end, f"{told}")
        count += bool(line) and int(line[1]) > MOST_OF_SYNTAX
    tests.tell("the fronts of a schema that are declarations", count == FRONTS, f"{count} of {FRONTS}")


def rooms(tests):
    """The greatest room that a value may have in its buffer, and a table more."""
    write("s.fbs", WIDE)
    for name, count in (("most.json", MOST_TABLES), ("more.json", MOST_TABLES + 1)):
        write(name, b'{"v":[{}' + b",{}" * (count - 1) + b"]}")
    tests.expect("the greatest room", ["binary", "s.fbs", "most.json", "most.bin"], 0)
    tests.expect("it is sound", ["check", "s.fbs", "most.bin"], 0, out=b"ok\n")
    line = b"40 TooBig\n"
    tests.expect("a table more", ["binary", "s.fbs", "more.json", "more.bin"], 1, err=line, holds={"more.bin": None})
    line += b"the buffer may take more than 2147483647 bytes, the most that offsets reach\n"
    tests.expect("explained", ["binary", "--explain", "s.fbs", "more.json", "more.bin"], 1, err=line)


def writes(tests):
    """Short pieces of a text are written together, some pages, and a long one by itself."""
    text = SHORT_ONES + LONG_ONE + b'"\n  ]\n}\n'
    write("s.fbs", STRINGS)
    write("v.json", text)
    tests.expect("the buffer of long strings", ["binary", "s.fbs", "v.json", "v.bin"], 0)
    # each write to such a socket is read alone
    ours, theirs = socket.socketpair(socket.AF_UNIX, socket.SOCK_SEQPACKET)
    with ours, subprocess.Popen([tests.program, "json", "s.fbs", "v.bin"], stdout=theirs) as child:
        theirs.close()
        pieces = []
        while piece := ours.recv(len(text)):
            pieces.append(piece)
    tests.tell("a text to a socket", child.returncode == 0 and b"".join(pieces) == text, f"{child.returncode}")
    lengths = [len(piece) for piece in pieces]
    whole, rest = divmod(len(SHORT_ONES), PAGE)
    good = all(PAGE - 6 < length <= PAGE for length in lengths[:whole]) and lengths[whole] < PAGE
    good = good and lengths[whole + 1] == len(LONG_ONE) and len(lengths) == whole + 3 and rest
    tests.tell("the lengths of its writes", good, f"{lengths}")


if __name__ == "__main__":
    sys.exit(Tests("texts", program_of(sys.argv, __doc__)).main((again, not_utf8, fronts, rooms, writes)))
