#!/usr/bin/env python3
"""The built program does with --explain what it does without: the status, the line and OUT are the same where memory is
short, where a file changes before it is explained, and where an input comes through a pipe.

usage: tests/told_alike.py PROGRAM

tests/replace.c, preloaded, replaces a file before the line of a fault is written; the C compiler has to be there (cc,
or what CC names). The last line is 'N passed, M failed'.
"""
import os
import resource
import shlex
import subprocess
import sys
import threading

from harness import ROOT, SECONDS, Tests, program_of, write
from hostile import MEMORY

MEGABYTE = 1 << 20
TEXT = 50 * MEGABYTE
# In megabytes, from where memory is too short on to where the buffer is made.
SPACES = (*range(100, 400, 25), *range(400, 1001, 50))
NAMED = b"table T { name:string; } root_type T;"
BAD = b"table T { name:string; hp:ubyte = 300; } root_type T;"
NUMBER = b"table T { a:ubyte; } root_type T;"


def within(megabytes):
    def limit():
        resource.setrlimit(resource.RLIMIT_AS, (megabytes * MEGABYTE, megabytes * MEGABYTE))

    return limit


def told(done):
    return f"status {done.returncode}, printed {done.stdout[:99]!r}, told {done.stderr[:300]!r}"


def outcome(tests, words, out, **more):
    """The run's status, what it prints, its line and whether OUT is there, and all that it tells."""
    done = tests.run(words, **more)
    made = os.path.exists(out)
    if made:
        os.remove(out)
    return (done.returncode, done.stdout, done.stderr.splitlines(keepends=True)[:1], made), done.stderr


def short_memory(tests):
    """A JSON text of 50 MB under a schema that is good, one that is bad and one that it doesn't fit."""
    write("good.fbs", NAMED)
    write("bad.fbs", BAD)
    write("other.fbs", NUMBER)
    write("v.json", b'{"name":"' + b"x" * TEXT + b'"}')
    met = {}
    for schema in ("good.fbs", "bad.fbs", "other.fbs"):
        for space in SPACES:
            more = {"preexec_fn": within(space)}
            alone, err = outcome(tests, ["binary", schema, "v.json", "out.bin"], "out.bin", **more)
            both, explained = outcome(tests, ["binary", "--explain", schema, "v.json", "out.bin"], "out.bin", **more)
            good = alone == both and explained.startswith(err)
            tests.tell(f"{schema} within {space} MB", good, f"{alone}, {both}")
            met.setdefault(schema, set()).add(b"".join(alone[2]))
    lines = {"good.fbs": b"", "bad.fbs": b"12 BadDefault at 34\n", "other.fbs": b"74 UnknownMember in type 0\n"}
    for schema, line in lines.items():
        tests.tell(f"{schema} with memory enough", line in met[schema], f"{met[schema]}")
    short = {line for seen in met.values() for line in seen if MEMORY.fullmatch(line)}
    tests.tell("memory that is too short", short, f"{met}")


def changed_files(tests):
    """A JSON text is explained as it was read, though the file has changed since."""
    library = os.path.abspath("replace.so")
    cc = shlex.split(os.environ.get("CC") or "cc")
    source = os.path.join(ROOT, "tests", "replace.c")
    subprocess.run([*cc, "-O1", "-shared", "-fPIC", "-o", library, source, "-ldl"], check=True)
    write("s.fbs", NUMBER)
    words = ["binary", "--explain", "s.fbs", "v.json", "out.bin"]
    line = b"72 OutOfRange in type 0 slot 0\n"
    place = b"v.json:1:6: a: 300 isn't in 0 to 255, the range of ubyte\n | {\"a\":300}\n |      ^\n"
    others = (
        ("a text of another length", b'{"a":1}'),
        ("a text of the same length", b'{"a":400}'),
        ("the same text in another file", b'{"a":300}'),
    )
    for what, other in others:
        write("v.json", b'{"a":300}')
        write("other.json", other)
        env = {**os.environ, "LD_PRELOAD": library, "REPLACE": "v.json", "REPLACE_BY": "other.json"}
        tests.expect(what, words, 1, err=line + place, env=env, holds={"v.json": other, "other.json": None})
    write("v.json", b'{"a":300}')
    env = {**os.environ, "LD_PRELOAD": library, "REPLACE": "v.json", "REPLACE_BY": ""}
    tests.expect("a text that is gone", words, 1, err=line + place, env=env, holds={"v.json": None})
    write("v.json", b'{"a":300}')
    tests.expect("a text that is as it was", words, 1, err=line + place)
    os.symlink("v.json", "link.json")
    words[3] = "link.json"
    tests.expect("a link to a text", words, 1, err=line + place.replace(b"v.json", b"link.json"))
    with open("v.json", "rb") as file:
        words[3] = "/dev/stdin"
        tests.expect(
            "a text on standard input", words, 1, err=line + place.replace(b"v.json", b"/dev/stdin"), stdin=file
        )


def replaced_schema(tests):
    """What is still there is explained as it was read, though the file has changed: here while the other is awaited."""
    old = b"// one line\ntable T { a:int; b:int; } root_type T;"
    new = b"table T { a:int; } root_type T;"
    write("old.fbs", old)
    os.mkfifo("new.fbs")

    def feed():
        with open("new.fbs", "wb") as pipe:
            # the program has read the old text once it opens this one
            write("other.fbs", b"table U {}")
            os.rename("other.fbs", "old.fbs")
            pipe.write(new)

    feeder = threading.Thread(target=feed)
    feeder.start()
    err = b"95 SlotGone in type 0 slot 1\nT.b: is gone (old.fbs:2); a field is never removed, but marked (deprecated) "
    err += b"[95 SlotGone]\n"
    tests.expect("a schema that was replaced", ["conform", "--explain", "old.fbs", "new.fbs"], 1, err=err)
    feeder.join(SECONDS)


def run_piped(tests, words, text):
    """A run whose standard input is a pipe with a short text in it."""
    out, into = os.pipe()
    os.write(into, text)
    os.close(into)
    try:
        return tests.run(words, stdin=out)
    finally:
        os.close(out)


def piped(tests, what, words, text, line, sentences):
    for flag in ([], ["--explain"]):
        done = run_piped(tests, [words[0], *flag, *words[1:]], text)
        want = line + (sentences if flag else b"")
        good = (done.returncode, done.stdout, done.stderr) == (1, b"", want)
        tests.tell(f"{what} {' '.join(flag)}", good, told(done))


def pipes(tests):
    """What came through a pipe is explained like a file."""
    write("s.fbs", NUMBER)
    write("v.json", b'{"a":300}')
    number = b"/dev/stdin:1:6: a: 300 isn't in 0 to 255, the range of ubyte\n | {\"a\":300}\n |      ^\n"
    cut = b"/dev/stdin:1:6: the text ends here, in the middle of a value\n | {\"a\":\n |      ^\n"
    binary = ["binary", "s.fbs", "/dev/stdin", "out.bin"]
    piped(tests, "a JSON text with a bad number", binary, b'{"a":300}', b"72 OutOfRange in type 0 slot 0\n", number)
    piped(tests, "a JSON text that isn't one", binary, b'{"a":', b"113 BadJson\n", cut)
    line = b"12 BadDefault at 20\n"
    place = (b"/dev/stdin:1:21: the default 300 of field 'a' doesn't fit the type ubyte: 0 to 255\n"
             b" | table T { a:ubyte = 300; } root_type T;\n | " + b" " * 20 + b"^\n")
    bad = b"table T { a:ubyte = 300; } root_type T;"
    piped(tests, "a schema", ["check", "/dev/stdin"], bad, line, place)
    piped(tests, "a schema before a JSON text", ["binary", "/dev/stdin", "v.json", "out.bin"], bad, line, place)
    write("bad.fbs", bad)
    place = (b"bad.fbs:1:21: the default 300 of field 'a' doesn't fit the type ubyte: 0 to 255\n"
             b" | table T { a:ubyte = 300; } root_type T;\n | " + b" " * 20 + b"^\n")
    piped(
        tests, "a JSON text under a bad schema", ["binary", "bad.fbs", "/dev/stdin", "out.bin"], b'{"a":3}', line, place
    )
    done = run_piped(tests, ["check", "--explain", "s.fbs", "/dev/stdin"], b"")
    good = done.returncode == 1 and done.stderr.startswith(b"50 Short at 0\n/dev/stdin: the buffer's length is 0")
    tests.tell("a buffer", good, told(done))


def main():
    tests = Tests("told_alike", program_of(sys.argv, __doc__))
    return tests.main((short_memory, changed_files, replaced_schema, pipes))


if __name__ == "__main__":
    sys.exit(main())
