#!/usr/bin/env python3
"""What the built program does with OUT: no input is lost, and a failure leaves OUT as it was.

usage: tests/outputs.py PROGRAM

The last line is 'N passed, M failed'.
"""
import json
import os
import resource
import shutil
import signal
import subprocess
import sys
import time

from harness import ONE, SEVEN, Tests, content, program_of, write

REFUSED = b"111 FileWrite\n"
WORDS = ["binary", "one.fbs", "seven.json"]
JSON = b'{"a":7}'
NOBODY = 65534
KILLS = 24
# Rows, which may have any of eight numbers, so that tables have many vtables.
NUMBERS = b"".join(b"n%d:int; " % k for k in range(8))
ROWS = b"table Row { %stext:string; } table Rows { rows:[Row]; } root_type Rows;" % NUMBERS
# Numbers in a vector, so that a buffer of some megabytes is written.
VECTOR = b"table T { v:[uint]; } root_type T;"
COUNT = 2_000_000


def inputs():
    write("one.fbs", ONE)
    write("seven.json", JSON)


def beside(folder="."):
    """The files that the program left beside OUT."""
    return [name for name in os.listdir(folder) if name.endswith(".tmp")]


def absent(tests):
    inputs()
    was = os.umask(0o027)
    tests.expect("OUT that is absent", [*WORDS, "out.bin"], 0, holds={"out.bin": SEVEN})
    os.umask(was)
    tests.tell("a new OUT has the usual mode", os.stat("out.bin").st_mode & 0o777 == 0o640)
    tests.expect("an absent OUT may be named as a text", [*WORDS, "out.json"], 0, holds={"out.json": SEVEN})
    os.mkdir("folder")
    tests.expect("OUT in a folder", [*WORDS, "folder/out"], 0, holds={"folder/out": SEVEN})
    tests.expect("OUT in a missing folder", [*WORDS, "missing/out"], 1, err=REFUSED)
    tests.expect("OUT below a file", [*WORDS, "one.fbs/out"], 1, err=REFUSED, holds={"one.fbs": ONE})
    tests.expect("an empty path", [*WORDS, ""], 1, err=REFUSED)
    tests.expect("OUT is a folder", [*WORDS, "folder"], 1, err=REFUSED)
    tests.expect("OUT is this folder", [*WORDS, "."], 1, err=REFUSED)
    name = "o" * 255
    tests.expect("OUT of the longest name", [*WORDS, name], 0, holds={name: SEVEN})
    tests.expect("OUT of a longer name", [*WORDS, name + "o"], 1, err=REFUSED)
    tests.tell("no other file is left", not beside() and not beside("folder"), f"{os.listdir('.')}")


def replaced(tests):
    inputs()
    for mode in (0o600, 0o640, 0o644, 0o666, 0o755):
        write("out.bin", b"old")
        os.chmod("out.bin", mode)
        with open("out.bin", "rb") as old:
            tests.expect(f"OUT of mode {mode:o}", [*WORDS, "out.bin"], 0, holds={"out.bin": SEVEN})
            # a file that was written in place would show the new bytes here
            tests.tell("who reads the old OUT reads on", old.read() == b"old")
        tests.tell(f"the mode {mode:o} is kept", os.stat("out.bin").st_mode & 0o7777 == mode)
    if os.geteuid() == 0:
        os.chown("out.bin", NOBODY, NOBODY)
        tests.run([*WORDS, "out.bin"])
        found = os.stat("out.bin")
        tests.tell("the owner is kept", (found.st_uid, found.st_gid) == (NOBODY, NOBODY), f"{found}")
    tests.tell("no other file is left", not beside(), f"{beside()}")


def unchanged(tests):
    """An OUT that has the buffer's bytes stays the file that it is, and its time is that of the run."""
    inputs()
    write("out.bin", SEVEN)
    was = os.stat("out.bin")
    for more in ({}, small_files(0)):
        os.utime("out.bin", (1, 1))
        tests.expect("OUT has the buffer", [*WORDS, "out.bin"], 0, holds={"out.bin": SEVEN}, **more)
        found = os.stat("out.bin")
        tests.tell(
            "it stays, and its time is now", found.st_ino == was.st_ino and found.st_mtime >= was.st_mtime, f"{found}"
        )
    os.link("out.bin", "other")
    tests.expect("OUT has another name", [*WORDS, "out.bin"], 0, holds={"out.bin": SEVEN, "other": SEVEN})
    tests.tell("the other name keeps the old file", os.stat("other").st_ino != os.stat("out.bin").st_ino)
    for at in range(len(SEVEN)):
        write("out.bin", SEVEN[:at] + bytes([SEVEN[at] ^ 1]) + SEVEN[at + 1 :])
        tests.expect(f"OUT has another byte at {at}", [*WORDS, "out.bin"], 0, holds={"out.bin": SEVEN})
    tests.tell("no other file is left", not beside(), f"{beside()}")


def same_names(tests, path, held):
    """OUT is the input at this path, by that name and others."""
    os.link(path, "hard")
    os.symlink(path, "soft")
    os.symlink("soft", "softer")
    for out in (path, f"./{path}", os.path.abspath(path), "hard", "soft", "softer"):
        tests.expect(f"OUT {out} is the input {path}", [*WORDS, out], 1, err=REFUSED, holds={path: held})
    for name in ("hard", "soft", "softer"):
        os.remove(name)


def guarded(tests):
    inputs()
    same_names(tests, "one.fbs", ONE)
    same_names(tests, "seven.json", JSON)
    # inputs without a telling name
    write("schema", ONE)
    write("text", JSON)
    os.link("text", "link")
    for out, held in (("schema", ONE), ("text", JSON), ("link", JSON)):
        words = ["binary", "schema", "text", out]
        tests.expect(f"OUT is the input {out}", words, 1, err=REFUSED, holds={out: held})
    os.symlink("one.fbs", "one.link")
    words = ["binary", "one.link", "seven.json", "one.fbs"]
    tests.expect("OUT is what the schema's link leads to", words, 1, err=REFUSED, holds={"one.fbs": ONE})
    for name in ("b.json", "c.fbs", ".json"):
        write(name, b"kept")
        tests.expect(f"OUT is a file {name}", [*WORDS, name], 1, err=REFUSED, holds={name: b"kept"})
    for name in ("b.jsn", "json", "c.json.bin", "c.FBS"):
        write(name, b"old")
        tests.expect(f"OUT is a file {name}", [*WORDS, name], 0, holds={name: SEVEN})
    write("bad.json", b"{")
    words = ["binary", "one.fbs", "bad.json", "one.fbs"]
    tests.expect("the JSON is refused before OUT is", words, 1, err=b"113 BadJson\n", holds={"one.fbs": ONE})
    tests.tell("no other file is left", not beside(), f"{beside()}")


def direct(tests):
    """Links, pipes and devices are written themselves, and stay what they are."""
    inputs()
    write("target", b"old and longer than a buffer of one number")
    os.symlink("target", "link")
    node = os.stat("target").st_ino
    tests.expect("OUT is a link", [*WORDS, "link"], 0, holds={"target": SEVEN})
    tests.tell("the link and its file stay", os.path.islink("link") and os.stat("target").st_ino == node)
    os.symlink("new", "dangling")
    tests.expect("OUT is a link to no file", [*WORDS, "dangling"], 0, holds={"new": SEVEN})
    tests.tell("that link stays", os.path.islink("dangling"))
    os.mkfifo("pipe")
    with subprocess.Popen(["cat", "pipe"], stdout=subprocess.PIPE) as reader:
        tests.expect("OUT is a pipe", [*WORDS, "pipe"], 0)
        tests.tell("the pipe brings the buffer", reader.communicate(timeout=20)[0] == SEVEN)
    tests.expect("OUT is standard output", [*WORDS, "/dev/stdout"], 0, out=SEVEN)
    tests.expect("OUT is the null device", [*WORDS, "/dev/null"], 0)
    tests.expect("OUT is full", [*WORDS, "/dev/full"], 1, err=REFUSED)
    tests.tell("no other file is left", not beside(), f"{beside()}")


def large(tests):
    """A large buffer: tables of all sets of eight fields, between texts of several lengths."""
    write("rows.fbs", ROWS)
    names = [f"n{k}" for k in range(8)]
    rows = [
        {name: k + 1 for name in names if bits >> names.index(name) & 1} | {"text": f"{bits} " * (bits % 97)}
        for k in range(20)
        for bits in range(256)
    ]
    rows[999]["text"] = "long " * 60_000
    write("rows.json", json.dumps({"rows": rows}).encode())
    words = ["binary", "rows.fbs", "rows.json"]
    tests.expect("a large OUT", [*words, "rows.bin"], 0)
    buffer = content("rows.bin")
    tests.tell("it is large", len(buffer) > 1_000_000, f"{len(buffer)} bytes")
    tests.expect("it holds a value", ["check", "rows.fbs", "rows.bin"], 0, out=b"ok\n")
    printed = tests.run(["json", "rows.fbs", "rows.bin"])
    tests.tell("the value is that of the JSON", json.loads(printed.stdout) == {"rows": rows})
    tests.expect("OUT is standard output", [*words, "/dev/stdout"], 0, out=buffer)
    tests.expect("with an explanation", ["binary", "--explain", *words[1:], "told.bin"], 0, holds={"told.bin": buffer})
    tests.expect("a full device", [*words, "/dev/full"], 1, err=REFUSED)


def other_user():
    """Root may write anywhere, so there another user tries."""
    return {"user": NOBODY, "group": NOBODY, "extra_groups": []} if os.geteuid() == 0 else {}


def forbidden(tests):
    inputs()
    shutil.copy(tests.program, "program")
    os.mkdir("shut")
    os.mkdir("open")
    write("shut/old", b"old")
    write("open/old", b"old")
    os.chmod("shut/old", 0o666)
    os.chmod("open/old", 0o444)
    os.chmod("shut", 0o555)
    os.chmod("open", 0o777)
    os.chmod(".", 0o755)
    more = {"executable": "./program", **other_user()}
    for out, held in (("shut/new", None), ("shut/old", b"old"), ("open/old", b"old")):
        tests.expect(f"{out} may not be written", [*WORDS, out], 1, err=REFUSED, holds={out: held}, **more)
    tests.expect("open/new may be written", [*WORDS, "open/new"], 0, holds={"open/new": SEVEN}, **more)
    tests.tell("no other file is left", not beside("shut") and not beside("open"))
    os.chmod("shut", 0o755)


def small_files(most):
    """No file may have more bytes, as where a disk is full."""

    def limit():
        signal.signal(signal.SIGXFSZ, signal.SIG_IGN)
        resource.setrlimit(resource.RLIMIT_FSIZE, (most, most))

    return {"preexec_fn": limit, "restore_signals": False}


def full(tests):
    inputs()
    for most in range(len(SEVEN)):
        write("out.bin", b"old")
        words = [*WORDS, "out.bin"]
        tests.expect(f"no room after {most}", words, 1, err=REFUSED, holds={"out.bin": b"old"}, **small_files(most))
        words = [*WORDS, "new"]
        tests.expect(f"none after {most}", words, 1, err=REFUSED, holds={"new": None}, **small_files(most))
    tests.expect("room enough", [*WORDS, "out.bin"], 0, holds={"out.bin": SEVEN}, **small_files(len(SEVEN)))
    tests.tell("no other file is left", not beside(), f"{beside()}")


def killed(tests):
    """Whenever the program is killed OUT is the old file or the whole new one."""
    write("one.fbs", VECTOR)
    write("seven.json", b'{"v":[' + b",".join(b"%d" % n for n in range(COUNT)) + b"]}")
    start = time.monotonic()
    tests.run([*WORDS, "whole"])
    seconds = time.monotonic() - start
    whole = content("whole")
    # root offset, vtable, table, count, and four bytes a number
    numbers = b"".join(n.to_bytes(4, "little") for n in range(COUNT))
    is_whole = whole is not None and whole.endswith(numbers) and len(whole) == 4 * COUNT + 24
    tests.tell("the buffer of many numbers", is_whole)
    kept = 0
    for k in range(KILLS):
        write("out.bin", b"old")
        with subprocess.Popen([tests.program, *WORDS, "out.bin"], stdin=subprocess.DEVNULL) as child:
            time.sleep(1.2 * seconds * (k + 1) / KILLS)
            child.kill()
        held = content("out.bin")
        kept += held == b"old"
        tests.tell(f"killed after {k + 1} of {KILLS} parts", held in (b"old", whole), f"{len(held)} bytes")
    tests.tell("some were killed before the end", kept > 0)
    print(f"outputs: {KILLS} killed, {kept} of them before OUT was there")


def main():
    tests = Tests("outputs", program_of(sys.argv, __doc__))
    return tests.main((absent, replaced, unchanged, guarded, direct, large, forbidden, full, killed))


if __name__ == "__main__":
    sys.exit(main())
