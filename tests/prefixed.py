#!/usr/bin/env python3
"""Buffers with the count of their bytes in front: made, read and checked, and beside Google's tools where these are
installed.

usage: tests/prefixed.py PROGRAM

200 schemas that Google's flatc takes, each with a value of its own, go both ways: its reader and the verifier of its
C++ library (by reflection) take what PROGRAM makes, and PROGRAM takes what flatc makes. Without flatc the same
schemas are tried with PROGRAM alone. The last line is 'N passed, M failed'.
"""
import json
import os
import shlex
import shutil
import subprocess
import sys

from harness import ONE, ROOT, SEVEN, SEVEN_TEXT, Tests, content, program_of, write
from soak import Schema

# The count, the root's reference, padding, a vtable, a table: worked by hand from the documentation's layout.
MESSAGE = bytes.fromhex("14000000 0c000000 0000 0600 0800 0400 06000000 07000000")
JSON = b'{"a":7}'
PREFIXED = "--size-prefixed"
SCHEMAS = 200
MOST_SEEDS = 600
THEIRS = shutil.which("flatc")
HEADER = "/usr/include/flatbuffers/reflection.h"


def by_hand(tests):
    """One message, with each line that has the flag."""
    write("one.fbs", ONE)
    write("seven.json", JSON)
    write("seven.bin", MESSAGE)
    write("bare.bin", SEVEN)
    write("long.bin", MESSAGE + b"\0")
    tests.expect("made", ["binary", PREFIXED, "one.fbs", "seven.json", "out.bin"], 0, holds={"out.bin": MESSAGE})
    tests.expect("printed", ["json", PREFIXED, "one.fbs", "seven.bin"], 0, SEVEN_TEXT)
    tests.expect("checked", ["check", PREFIXED, "one.fbs", "seven.bin"], 0, b"ok\n")
    tests.expect(
        "to a folder", ["binary", PREFIXED, "-o", ".", "one.fbs", "seven.json"], 0, holds={"seven.bin": MESSAGE}
    )
    tests.expect("from a folder", ["json", PREFIXED, "-o", ".", "one.fbs", "long.bin", "seven.bin"], 1,
                 err=b"long.bin: 54 OutOfBounds at 24\n", holds={"seven.json": SEVEN_TEXT})
    tests.expect("several", ["check", PREFIXED, "one.fbs", "seven.bin", "bare.bin"], 1,
                 err=b"bare.bin: 54 OutOfBounds at 16\n")
    tests.expect("a byte behind", ["check", PREFIXED, "one.fbs", "long.bin"], 1, err=b"54 OutOfBounds at 24\n")
    tests.expect("without the flag", ["check", "one.fbs", "seven.bin"], 1, err=b"56 BadVtable at 20\n")


def told(tests, words):
    """The lines behind a refusal's own."""
    return tests.run(words).stderr.decode().partition("\n")[2]


def explained(tests):
    """A buffer that is framed in another way than the flag says."""
    write("one.fbs", ONE)
    write("seven.bin", MESSAGE)
    write("bare.bin", SEVEN)
    write("two.bin", 2 * MESSAGE)
    lines = told(tests, ["check", "--explain", "one.fbs", "seven.bin"])
    tests.tell("the flag is missing", "a size-prefixed buffer? add --size-prefixed\n" in lines, lines)
    lines = told(tests, ["check", PREFIXED, "--explain", "one.fbs", "bare.bin"])
    tests.tell("the flag is too much", "leave out --size-prefixed\n" in lines, lines)
    tests.tell("what the count says", "bytes 0 to 3 say that 12 bytes follow, and 16 do\n" in lines, lines)
    for flags in ([], [PREFIXED]):
        lines = told(tests, ["check", *flags, "--explain", "one.fbs", "two.bin"])
        tests.tell(f"two messages, {flags}", "2 size-prefixed buffers, one after the other" in lines, lines)
    write("bad.bin", SEVEN[:18])
    lines = told(tests, ["check", "--explain", "one.fbs", "bad.bin"])
    tests.tell("no word of a count without reason", "prefixed" not in lines, lines)


def ran(words):
    return subprocess.run(words, capture_output=True, check=False)


def verifier(tests):
    """The program of tests/prefixed.cpp, or None where Google's library isn't there."""
    if not os.path.exists(HEADER):
        return None
    compiler = shlex.split(os.environ.get("CXX") or "c++")
    source = os.path.join(ROOT, "tests", "prefixed.cpp")
    done = ran([*compiler, "-O1", source, "-lflatbuffers", "-o", "verify"])
    tests.tell("the verifier compiles", done.returncode == 0, done.stderr[-500:])
    return os.path.abspath("verify") if done.returncode == 0 else None


def beside_flatc(tests, verify):
    """Google's tools on what PROGRAM made of v.json, and PROGRAM on what flatc made; none if flatc takes neither."""
    if ran([THEIRS, "-b", PREFIXED, "-o", "theirs", "s.fbs", "v.json"]).returncode != 0:
        return None
    problems = []
    if not tests.run(["check", PREFIXED, "s.fbs", "theirs/v.bin"]).stdout == b"ok\n":
        problems.append("flatc's buffer is refused")
    if tests.run(["json", PREFIXED, "s.fbs", "theirs/v.bin"]).stdout != tests.run(["json", PREFIXED, "s.fbs",
    "v.bin"]).stdout:
        problems.append("flatc's buffer prints as another value")
    shutil.copy("v.bin", "ours.bin")
    for what, flags in (("ours", [PREFIXED]), ("bare", [])):
        done = ran([THEIRS, "-t", "--strict-json", "--raw-binary", *flags, "-o", "read", "s.fbs", "--", f"{what}.bin"])
        if done.returncode != 0:
            problems.append(f"flatc refuses {what}.bin")
    if content("read/ours.json") != content("read/bare.json"):
        problems.append("flatc reads another value than of the bare buffer")
    if verify:
        if ran([THEIRS, "-b", "--schema", "s.fbs"]).returncode != 0:
            problems.append("no binary schema")
        elif ran([verify, "s.bfbs", "v.bin", "theirs/v.bin"]).returncode != 0:
            problems.append("the C++ verifier refuses a buffer")
    return problems


def generated(tests):
    """Schemas of all kinds, with values of their own."""
    verify = THEIRS and verifier(tests)
    if not THEIRS:
        print("prefixed: Google's tools: skipped; flatc isn't installed", flush=True)
    for folder in ("theirs", "read"):
        os.mkdir(folder)
    done = 0
    for seed in range(MOST_SEEDS):
        if done == SCHEMAS:
            break
        schema = Schema(seed)
        given, shown = schema.root_value()
        write("s.fbs", schema.text.encode())
        write("v.json", json.dumps(given).encode())
        tests.run(["binary", "s.fbs", "v.json", "bare.bin"])
        made = tests.run(["binary", PREFIXED, "s.fbs", "v.json", "v.bin"])
        message = content("v.bin") or b""
        printed = tests.run(["json", PREFIXED, "s.fbs", "v.bin"]).stdout
        problems = [] if made.returncode == 0 else [f"refused: {made.stderr}"]
        if int.from_bytes(message[:4], "little") != len(message) - 4:
            problems.append("a wrong count")
        if json.loads(printed or "null") != shown:
            problems.append(f"printed as {printed[:200]}")
        beside = beside_flatc(tests, verify) if THEIRS else []
        if beside is not None:
            done += 1
        problems += beside or []
        tests.tell(f"the schema of seed {seed}", not problems, "; ".join(problems))
    tests.tell("enough schemas", done == SCHEMAS, f"{done}")


def main():
    program = program_of(sys.argv, __doc__)
    return Tests("prefixed", program).main([by_hand, explained, generated])


if __name__ == "__main__":
    sys.exit(main())
