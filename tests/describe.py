#!/usr/bin/env python3
"""flatc describe: the listing of schemas, what is refused, and where the listing goes.

usage: tests/describe.py PROGRAM

The last line is 'N passed, M failed'.
"""
import sys

from harness import ROOT, Tests, content, program_of, write

KINDS = """\
namespace Shop;
enum Color:byte { Red, Green = 3, Blue }
enum Power:ushort (bit_flags) { Fly, Swim }
struct Pos { x:int; y:long; }
table Spell { cost:uint; }
union Gift { Spell, Other:Spell }
table Orc {
  name:string (required);
  hp:short = 100;
  color:Color = Green;
  powers:Power = Swim;
  pos:Pos;
  gift:Gift;
  ok:bool = true;
  old:int (deprecated);
  spare:ubyte = null;
  colors:[Color];
  path:[Pos];
}
root_type Orc;
file_identifier "ORCS";
"""
KINDS_LISTED = """\
root type 5, Shop.Orc
file identifier "ORCS"

type 0: enum Shop.Color, of byte (1 byte, aligned to 1)
  Red = 0
  Green = 3
  Blue = 4
type 1: bit flags Shop.Power, of ushort (2 bytes, aligned to 2)
  Fly = 1
  Swim = 2
type 2: struct Shop.Pos (16 bytes, aligned to 8)
  field 0: x, int, at byte 0
  field 1: y, long, at byte 8
type 3: table Shop.Spell
  slot 0: cost, uint = 0 (4 bytes, aligned to 4)
type 4: union Shop.Gift
  code 0: NONE
  code 1: Spell, table of type 3
  code 2: Other, table of type 3
type 5: table Shop.Orc
  slot 0: name, string, required
  slot 1: hp, short = 100 (2 bytes, aligned to 2)
  slot 2: color, Shop.Color = Green (1 byte, aligned to 1)
  slot 3: powers, Shop.Power = Swim (2 bytes, aligned to 2)
  slot 4: pos, Shop.Pos (16 bytes, aligned to 8)
  slot 5: gift_type, code of union Shop.Gift (1 byte, aligned to 1)
  slot 6: gift, union Shop.Gift
  slot 7: ok, bool = true (1 byte, aligned to 1)
  slot 8: old, int = 0, deprecated (4 bytes, aligned to 4)
  slot 9: spare, optional ubyte (1 byte, aligned to 1)
  slot 10: colors, [Shop.Color]
  slot 11: path, [Shop.Pos]
"""
# The numbers of a slot that has an id.
IDS = "table T { b:int (id: 1); a:int (id: 0); } root_type T;"
IDS_LISTED = """\
root type 0, T

type 0: table T
  slot 0: a, int = 0 (4 bytes, aligned to 4)
  slot 1: b, int = 0 (4 bytes, aligned to 4)
"""
BAD = b"table T { a:ubyte = 300; } root_type T;"
REFUSED = [
    ("in a line", ["--terse"], b"12 BadDefault at 20\n"),
    ("for an editor", ["--error-format", "short"],
     b"bad.fbs:1:21: error: the default 300 of field 'a' doesn't fit the type ubyte: 0 to 255 [12 BadDefault]\n"),
    ("explained", ["--explain"],
     b"12 BadDefault at 20\nbad.fbs:1:21: the default 300 of field 'a' doesn't fit the type ubyte: 0 to 255\n"
     b" | table T { a:ubyte = 300; } root_type T;\n |" + b" " * 21 + b"^\n"),
]


def listings(tests):
    write("kinds.fbs", KINDS.encode())
    tests.expect("types of all kinds", ["describe", "kinds.fbs"], 0, KINDS_LISTED.encode())
    tests.expect("whatever the format of refusals", ["describe", "--terse", "kinds.fbs"], 0, KINDS_LISTED.encode())
    write("ids.fbs", IDS.encode())
    tests.expect("slots by id", ["describe", "ids.fbs"], 0, IDS_LISTED.encode())
    tests.expect("standard input", ["describe", "-"], 0, IDS_LISTED.encode(), stdin=open("ids.fbs", "rb"))
    done = tests.run(["describe", f"{ROOT}/examples/orc.fbs"])
    line = content(f"{ROOT}/docs/COMMAND.md").decode()
    tests.tell("the listing of docs/COMMAND.md", done.stdout.decode() in line, f"{done.stdout!r}")


def refusals(tests):
    write("bad.fbs", BAD)
    for name, flags, want in REFUSED:
        tests.expect(f"a schema that is refused, {name}", ["describe", *flags, "bad.fbs"], 1, err=want)
    tests.expect("a file that isn't there", ["describe", "--terse", "no.fbs"], 1, err=b"110 FileRead\n")
    write("ids.fbs", IDS.encode())
    with open("/dev/full", "wb") as full:
        done = tests.run(["describe", "--terse", "ids.fbs"], stdout=full)
    tests.tell("a full device", (done.returncode, done.stderr) == (1, b"82 WriteFailed after 0\n"), f"{done!r}")


def usage(tests):
    for words in ([], ["a", "b"], ["--raw-binary", "a"], ["--lines", "a"]):
        done = tests.run(["describe", *words])
        good = (done.returncode, done.stdout) == (2, b"") and b"Usage: flatc describe [OPTIONS] <SCHEMA>" in done.stderr
        tests.tell(f"the line describe {words}", good, f"{done!r}")


if __name__ == "__main__":
    sys.exit(Tests("describe", program_of(sys.argv, __doc__)).main((listings, refusals, usage)))
