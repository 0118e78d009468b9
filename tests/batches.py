#!/usr/bin/env python3
"""Many files in one call: `check SCHEMA BIN..`, and `binary` and `json` into a directory.

usage: tests/batches.py PROGRAM

tests/refuse.c, preloaded, refuses growths of the heap; the C compiler has to be there (cc, or what CC names). The last
line is 'N passed, M failed'. Where Google's flatc is installed, the times of both for the same call are printed.
"""
import os
import re
import resource
import shutil
import stat
import statistics
import subprocess
import sys
import threading
import time

from harness import ONE, SEVEN, SEVEN_TEXT, Tests, content, program_of, write
from hostile import MEMORY, refusing, shim

UNWRITTEN = b"111 FileWrite\n"
BAD = b'{"a":7,"b":8}'
TOLD = b"74 UnknownMember in type 0\n"
MANY = 1000
# For the times beside Google's: files of about a kilobyte.
TIMED = 300
ROUNDS = 15
GROWTHS = 2000
# In seconds, longer than work that isn't told.
SLOW = 1.5
CLEARED = b"\r\x1b[K"


def two(number):
    """A buffer of the number, and its JSON text, which is as it is printed too."""
    return SEVEN[:-4] + number.to_bytes(4, "little"), b'{\n  "a": %d\n}\n' % number


def inputs():
    write("one.fbs", ONE)
    os.mkdir("in")
    os.mkdir("out")
    for number in (1, 2, 3):
        buffer, text = two(number)
        write(f"in/{number}.json", text)
        write(f"in/{number}.bin", buffer)
    write("in/bad.json", BAD)
    write("in/cut.bin", SEVEN[:16])


def beside(folder):
    """The files that the program left beside its outputs."""
    return [name for name in os.listdir(folder) if name.endswith(".tmp")]


def only(tests, folder, names):
    found = sorted(os.listdir(folder))
    tests.tell(f"{folder} has {names}", found == sorted(names), f"{found}")


def jsons(*names):
    return [f"in/{name}.json" for name in names]


def bins(*names):
    return [f"in/{name}.bin" for name in names]


def done(tests):
    inputs()
    made = {f"out/{number}.bin": two(number)[0] for number in (1, 2, 3)}
    for option in (["-o", "out"], ["--out-dir", "out"], ["-oout"], ["--out-dir=out"], ["-o", "out/"]):
        tests.expect(f"buffers by {option}", ["binary", *option, "one.fbs", *jsons(1, 2, 3)], 0, holds=made)
        for path in made:
            os.remove(path)
    tests.expect("one file", ["binary", "-o", "out", "one.fbs", *jsons(2)], 0, holds={"out/2.bin": two(2)[0]})
    texts = {f"out/{number}.json": two(number)[1] for number in (1, 2, 3)}
    tests.expect("texts", ["json", "-o", "out", "one.fbs", *bins(1, 2, 3)], 0, holds=texts)
    tests.expect("buffers that are checked", ["check", "one.fbs", *bins(1, 2, 3)], 0, b"ok\n")
    only(tests, "out", ["1.json", "2.bin", "2.json", "3.json"])


def flags(tests):
    """The flags of the lines over one file go with many."""
    inputs()
    made = {"out/bad.bin": SEVEN, "out/1.bin": two(1)[0]}
    words = ["binary", "--unknown-json", "-o", "out", "one.fbs", *jsons("bad", 1)]
    tests.expect("unknown fields", words, 0, holds=made)
    write("id.fbs", ONE + b' file_identifier "TEST";')
    write("default.bin", bytes.fromhex("08000000 0400 0400 04000000"))
    told = b"".join(path.encode() + b": 52 WrongIdentifier at 4\n" for path in bins(1, 2))
    tests.expect("another identifier", ["check", "id.fbs", *bins(1, 2)], 1, err=told)
    tests.expect("raw buffers", ["check", "--raw-binary", "id.fbs", *bins(1, 2)], 0, b"ok\n")
    holds = {"out/default.json": b'{\n  "a": 0\n}\n'}
    tests.expect("defaults", ["json", "--defaults-json", "-o", "out", "one.fbs", "default.bin"], 0, holds=holds)
    tests.expect(
        "a raw text", ["json", "--raw-binary", "-o", "out", "id.fbs", *bins(1)], 0, holds={"out/1.json": two(1)[1]}
    )
    words = ["json", "id.fbs", "--out-dir=out", "--explain", *bins(2), "--raw-binary"]
    tests.expect("flags between paths and behind them", words, 0, holds={"out/2.json": two(2)[1]})


def refused(tests):
    """A file that is refused has its line, and the others go on."""
    inputs()
    write("out/bad.bin", b"old")
    holds = {"out/1.bin": two(1)[0], "out/3.bin": two(3)[0], "out/bad.bin": b"old"}
    words = ["binary", "-o", "out", "one.fbs", *jsons(1, "bad", 3)]
    tests.expect("a JSON text", words, 1, err=b"in/bad.json: " + TOLD, holds=holds)
    cut = b"in/cut.bin: 54 OutOfBounds at 16\n"
    words = ["json", "-o", "out", "one.fbs", *bins("cut", 2)]
    tests.expect("a buffer", words, 1, err=cut, holds={"out/2.json": two(2)[1], "out/cut.json": None})
    tests.expect("of two that are checked", ["check", "one.fbs", *bins(1, "cut")], 1, err=cut)
    tests.expect(
        "one that is checked has no path", ["check", "one.fbs", "in/cut.bin"], 1, err=b"54 OutOfBounds at 16\n"
    )
    words = ["check", "one.fbs", "in", "missing", *bins("cut", 1), ""]
    told = b"in: 110 FileRead\nmissing: 110 FileRead\n" + cut + b": 110 FileRead\n"
    tests.expect("files that can't be read", words, 1, err=told)
    words = ["binary", "-o", "out", "one.fbs", "in", "..", "missing.json", *jsons(2)]
    told = b"in: 110 FileRead\n..: 110 FileRead\nmissing.json: 110 FileRead\n"
    tests.expect("and that aren't converted", words, 1, err=told, holds={"out/2.bin": two(2)[0]})
    os.mkdir("out/3.json")
    words = ["json", "-o", "out", "one.fbs", *bins(3, 1)]
    tests.expect("an output is a folder", words, 1, err=b"in/3.bin: " + UNWRITTEN, holds={"out/1.json": two(1)[1]})
    only(tests, "out", ["1.bin", "1.json", "2.bin", "2.json", "3.bin", "3.json", "bad.bin"])


def schemas(tests):
    """A schema that is refused, and a directory that isn't there, have one line."""
    inputs()
    write("bad.fbs", b"table")
    before = os.listdir("out")
    line = tests.run(["check", "bad.fbs"]).stderr
    for words in (["check"], ["binary", "-o", "out"], ["json", "-o", "out"]):
        tests.expect(f"a schema of {words} is refused", [*words, "bad.fbs", *bins(1, 2)], 1, err=line)
        tests.expect(f"a schema of {words} is missing", [*words, "no.fbs", *bins(1, 2)], 1, err=b"110 FileRead\n")
    for folder in ("missing", "one.fbs", ""):
        words = ["binary", "-o", folder, "one.fbs", *jsons(1, 2)]
        tests.expect(f"the directory is {folder!r}", words, 1, err=UNWRITTEN)
    tests.tell("nothing is written", os.listdir("out") == before and os.listdir(".").count("missing") == 0)


def named(tests):
    """What outputs are called."""
    inputs()
    os.mkdir("in/d.d")
    names = {"a.b.json": "a.b", "noend": "noend", ".json": ".json", "-o": "-o", "d.d/x": "x", "sp ace.txt": "sp ace"}
    for name in names:
        write(f"in/{name}", two(5)[1])
    words = ["binary", "-o", "out", "one.fbs", *(f"in/{name}" for name in names)]
    tests.expect("names", words, 0, holds={f"out/{stem}.bin": two(5)[0] for stem in names.values()})
    os.chdir("in")
    words = ["binary", "-o", "../out", "--", "../one.fbs", "-o", "noend"]
    os.remove("../out/-o.bin")
    tests.expect("a name with a dash", words, 0, holds={"../out/-o.bin": two(5)[0]})
    os.chdir("..")
    os.mkdir("-d")
    words = ["binary", "-o", "./-d", "one.fbs", *jsons(1)]
    tests.expect("a directory with a dash", words, 0, holds={"-d/1.bin": two(1)[0]})


def misuse(tests, what, words, before):
    end = tests.run(words)
    good = end.returncode == 2 and not end.stdout and end.stderr.startswith(b"error: ")
    good = good and f"\nUsage: flatc {words[0]} ".encode() in end.stderr
    tests.tell(what, good, f"{end}")
    tests.tell(f"{what}: nothing is written", all(content(path) == held for path, held in before.items()))


def misused(tests):
    inputs()
    os.mkdir("again")
    write("again/1.json", two(9)[1])
    misuse(tests, "two outputs of one name", ["binary", "-o", "out", "one.fbs", *jsons(2, 1), "again/1.json"],
           {"out/2.bin": None})
    misuse(tests, "one file twice", ["json", "-o", "out", "one.fbs", *bins(1, 1)], {"out/1.json": None})
    shutil.copy("in/1.bin", "again/7.json")
    held = {"again/7.json": two(1)[0], "again/2.json": None}
    words = ["json", "-o", "again", "one.fbs", *bins(2), "again/7.json"]
    misuse(tests, "an output is its input", words, held)
    os.link("in/3.bin", "out/2.json")
    misuse(tests, "an output is another input", ["json", "-o", "out", "one.fbs", *bins(1, 2, 3)], {"out/1.json": None})
    os.symlink("../one.fbs", "out/3.bin")
    words = ["binary", "-o", "out", "one.fbs", *jsons(3)]
    misuse(tests, "an output is the schema", words, {"one.fbs": ONE})
    misuse(tests, "standard input has no name", ["binary", "-o", "out", "one.fbs", "-"], {"out/-.bin": None})
    misuse(tests, "no file", ["binary", "-o", "out", "one.fbs"], {})
    misuse(tests, "no OUT", ["binary", "one.fbs", "in/1.json"], {})
    misuse(tests, "a path more", ["binary", "one.fbs", "in/1.json", "o", "p"], {"o": None})
    misuse(tests, "two buffers to print", ["json", "one.fbs", *bins(1, 2)], {})
    misuse(tests, "a directory for check", ["check", "-o", "out", "one.fbs", *bins(1)], {})
    misuse(tests, "two directories", ["json", "-o", "out", "-o", "in", "one.fbs", *bins(1)], {"out/1.json": None})
    misuse(tests, "three schemas to compare", ["conform", "one.fbs", "one.fbs", "one.fbs"], {})


def replaced(tests):
    """An output that is there is replaced whole, and keeps its mode."""
    inputs()
    write("out/1.bin", b"old")
    os.chmod("out/1.bin", 0o640)
    words = ["binary", "-o", "out", "one.fbs", *jsons(1)]
    with open("out/1.bin", "rb") as old:
        tests.expect("an output that is there", words, 0, holds={"out/1.bin": two(1)[0]})
        tests.tell("who reads the old one reads on", old.read() == b"old")
    tests.tell("its mode is kept", stat.S_IMODE(os.stat("out/1.bin").st_mode) == 0o640)
    was = os.stat("out/1.bin")
    os.utime("out/1.bin", (1, 1))
    tests.expect("an output that is as it should be", words, 0, holds={"out/1.bin": two(1)[0]})
    found = os.stat("out/1.bin")
    tests.tell(
        "it stays, and its time is now", found.st_ino == was.st_ino and found.st_mtime >= was.st_mtime, f"{found}"
    )
    write("out/2.json", b"old and longer than the text")
    tests.expect("a text that is there", ["json", "-o", "out", "one.fbs", *bins(2)], 0, holds={"out/2.json": two(2)[1]})
    write("far", b"old")
    os.symlink("../far", "out/3.bin")
    tests.expect("an output is a link", ["binary", "-o", "out", "one.fbs", *jsons(3)], 0, holds={"far": two(3)[0]})
    tests.tell("the link stays", os.path.islink("out/3.bin"))
    os.mkfifo("out/2.bin")
    with subprocess.Popen(["cat", "out/2.bin"], stdout=subprocess.PIPE) as reader:
        tests.expect("an output is a pipe", ["binary", "-o", "out", "one.fbs", *jsons(2, 1)], 0)
        tests.tell("the pipe brings the buffer", reader.communicate(timeout=20)[0] == two(2)[0])

    def small():
        resource.setrlimit(resource.RLIMIT_FSIZE, (5, 5))

    told = b"".join(path.encode() + b": " + UNWRITTEN for path in jsons(1, "noend"))
    write("in/noend.json", two(4)[1])
    write("out/1.bin", b"old")
    words = ["binary", "-o", "out", "one.fbs", *jsons(1, "noend")]
    holds = {"out/1.bin": b"old", "out/noend.bin": None}
    tests.expect("no room", words, 1, err=told, holds=holds, preexec_fn=small, restore_signals=False)
    tests.tell("no other file is left", not beside("out"), f"{beside('out')}")


def streams(tests):
    """Standard input as the schema or one of the buffers, and outputs that are closed."""
    inputs()
    with open("one.fbs", "rb") as schema:
        words = ["binary", "-o", "out", "-", *jsons(1, 2)]
        tests.expect(
            "the schema comes in", words, 0, holds={"out/1.bin": two(1)[0], "out/2.bin": two(2)[0]}, stdin=schema
        )
    with open("in/cut.bin", "rb") as buffer:
        told = b"-: 54 OutOfBounds at 16\n"
        tests.expect("a buffer comes in", ["check", "one.fbs", *bins(1), "-"], 1, err=told, stdin=buffer)
    shutil.copy("in/1.bin", "-o")
    with open("in/cut.bin", "rb") as buffer:
        tests.expect("behind two dashes", ["check", "one.fbs", "--", "-", "-o"], 1, err=told, stdin=buffer)
    with open("/dev/full", "wb") as full:
        tests.expect("no room for ok", ["check", "one.fbs", *bins(1, 2)], 1, stdout=full)
    read, write_end = os.pipe()
    os.close(read)
    tests.expect("a closed pipe for ok", ["check", "one.fbs", *bins(1, 2)], 1, stdout=write_end)
    words = [tests.program, "binary", "-o", "out", "one.fbs", *jsons("bad", 3)]
    end = subprocess.run(words, stdin=subprocess.DEVNULL, stderr=write_end, check=False, timeout=60)
    good = end.returncode == 1 and content("out/3.bin") == two(3)[0]
    tests.tell("a closed pipe for refusals: the others go on", good, f"{end}")
    os.close(write_end)


def explained(tests):
    """Each refusal is explained, behind the line that it has without the flag."""
    inputs()
    write("in/bad2.json", BAD)
    words = ["-o", "out", "one.fbs", *jsons("bad", 1, "bad2"), "missing"]
    plain = tests.run(["binary", *words])
    long = tests.run(["binary", "--explain", *words])
    lines = plain.stderr.splitlines(keepends=True)
    tests.tell("three are refused", len(lines) == 3 and plain.returncode == long.returncode == 1, f"{plain} {long}")
    rest = long.stderr
    for number, line in enumerate(lines):
        at = rest.find(line)
        tests.tell(f"refusal {number} has its line", at == 0 if number == 0 else at > 0, f"{rest[:99]}")
        rest = rest[at + len(line) :]
    for name in (b"in/bad.json", b"in/bad2.json", b"missing"):
        tests.tell(f"the explanation names {name}", long.stderr.count(name) >= 2, f"{long.stderr}")
    found = tests.run(["check", "--explain", "one.fbs", *bins("cut", 1)])
    tests.tell("a buffer is explained",
               found.stderr.startswith(b"in/cut.bin: 54 OutOfBounds at 16\n") and found.stderr.count(b"\n") > 1)
    gone = tests.run(["json", "--explain", "-o", "gone", "one.fbs", *bins(1)])
    tests.tell(
        "a missing directory is explained", gone.stderr.startswith(UNWRITTEN) and b"gone" in gone.stderr, f"{gone}"
    )
    good = tests.run(["check", "--explain", "one.fbs", *bins(1, 2)])
    tests.tell("nothing to explain", (good.returncode, good.stdout, good.stderr) == (0, b"ok\n", b""), f"{good}")


def many(tests):
    inputs()
    names = [f"in/many{number:04}.json" for number in range(MANY)]
    for number, name in enumerate(names):
        write(name, b"{" if number % 100 == 99 else two(number + 1)[1])
    told = b"".join(name.encode() + b": 113 BadJson\n" for name in names[99::100])
    tests.expect("a thousand texts", ["binary", "-o", "out", "one.fbs", *names], 1, err=told)
    good = all(content(f"out/many{k:04}.bin") == (None if k % 100 == 99 else two(k + 1)[0]) for k in range(MANY))
    tests.tell("each has its buffer", good)
    made = [f"out/{name}" for name in sorted(os.listdir("out"))]
    tests.expect("their buffers are sound", ["check", "one.fbs", *made], 0, b"ok\n")
    os.mkdir("back")
    tests.expect("and printed", ["json", "-o", "back", "one.fbs", *made], 0)
    good = all(content(f"back/many{k:04}.json") == two(k + 1)[1] for k in range(MANY) if k % 100 != 99)
    tests.tell("as they were", good)


def slow_file(path, what):
    """A pipe that brings its bytes late."""
    os.mkfifo(path)

    def bring():
        with open(path, "wb") as pipe:
            time.sleep(SLOW)
            pipe.write(what)

    threading.Thread(target=bring).start()


def progress(tests):
    """How far long work is, on a terminal alone."""
    inputs()
    status, told = tests.at_terminal(["check", "one.fbs", *bins(1, 2, 3)])
    tests.tell("short work tells nothing", (status, told) == (0, b""), f"{told}")
    slow_file("slow", SEVEN)
    status, told = tests.at_terminal(["check", "one.fbs", *bins(1), "slow", *bins(2)])
    tests.tell("long work tells how far it is", (status, told) == (0, b"\r2 of 3" + CLEARED), f"{told}")
    slow_file("slow2", SEVEN)
    status, told = tests.at_terminal(["check", "one.fbs", "slow2", *bins("cut", 2)])
    want = b"\r1 of 3" + CLEARED + b"in/cut.bin: 54 OutOfBounds at 16\n"
    tests.tell("a refusal has a line of its own", status == 1 and told.startswith(want), f"{told}")
    slow_file("slow3", SEVEN)
    tests.expect("a pipe is told nothing", ["check", "one.fbs", "slow3", *bins(2)], 0, b"ok\n")


def growths(tests):
    """Each growth refused, one alone and all from one on: a file that memory ran out for has its line."""
    inputs()
    library = shim()
    line = re.compile(rb"(?:in/[123]\.(?:json|bin): )?" + MEMORY.pattern)
    for words in (["binary", "-o", "out", "one.fbs", *jsons(1, 2, 3)],
                  ["json", "-o", "out", "one.fbs", *bins(1, 2, 3)]):
        ending = "bin" if words[0] == "binary" else "json"
        wanted = {f"out/{number}.{ending}": two(number)[words[0] == "json"] for number in (1, 2, 3)}
        for later in ("", "+"):
            problems = []
            number = 0
            while number < GROWTHS:
                number += 1
                for path in wanted:
                    if os.path.exists(path):
                        os.remove(path)
                end = tests.run(words, env=refusing(library, f"{number}{later}", "count"))
                if content("count").split()[1] == b"0":
                    break
                lines = end.stderr.splitlines(keepends=True)
                made = [path for path, held in wanted.items() if content(path) == held]
                left = [path for path in wanted if os.path.exists(path) and path not in made]
                told = all(line.fullmatch(one) for one in lines) or end.stderr == b"error: out of memory\n"
                whole = len(made) == 3 and not lines and end.returncode == 0
                if left or beside("out") or not (whole or (lines and told and end.returncode == 1)):
                    problems.append(f"growth {number}{later}: {end} made {made}, left {left}")
            tests.tell(
                f"growths of {words[0]}{later}", not problems and number > 10, f"{number} growths; {problems[:3]}"
            )


def timed(words, folder):
    """The milliseconds that a run into a new folder takes, and one more: of the user, the processor and the clock."""
    os.mkdir(folder)
    taken = []
    for _ in range(2):
        before = resource.getrusage(resource.RUSAGE_CHILDREN)
        start = time.monotonic()
        subprocess.run(words, check=True)
        wall = time.monotonic() - start
        after = resource.getrusage(resource.RUSAGE_CHILDREN)
        user = after.ru_utime - before.ru_utime
        taken += [1000 * user, 1000 * (user + after.ru_stime - before.ru_stime), 1000 * wall]
    return taken


def times(tests):
    """The same call beside Google's, where that is installed, in turns: the medians of both are printed."""
    write("log.fbs", b"table E { id:ulong; at:long; text:string; } table L { host:string; entries:[E]; } root_type L;")
    names = []
    for number in range(TIMED):
        names.append(f"log{number:03}.json")
        entries = b",".join(b'{"id":%d,"at":%d,"text":"entry %d of a log"}' % (k, number * k, k) for k in range(20))
        write(names[-1], b'{"host":"host%d","entries":[%s]}' % (number, entries))
    calls = {"this program": [tests.program, "binary", "-o"]}
    if google := shutil.which("flatc"):
        calls["Google's"] = [google, "-b", "-o"]
    taken = {name: [] for name in calls}
    # No folder is removed meanwhile: a file system may make files more slowly where many are gone.
    for number in range(ROUNDS):
        for name, call in calls.items():
            folder = f"{name} {number}"
            taken[name].append(timed([*call, folder, "log.fbs", *names], folder))
    tests.tell("each file is there", len(os.listdir("this program 0")) == TIMED)
    for name, rounds in taken.items():
        medians = [f"{statistics.median(column):.1f}" for column in zip(*rounds)]
        new, again = ", ".join(medians[:3]), ", ".join(medians[3:])
        print(f"batches: {TIMED} files of 1 kB, {name}: user, processor, clock {new} ms, once more {again} ms")


def main():
    tests = Tests("batches", program_of(sys.argv, __doc__))
    # The times come first: a file system may make files more slowly where many are gone.
    parts = (
        times, done, flags, refused, schemas, named, misused, replaced, streams, explained, many, progress, growths
    )
    return tests.main(parts)


if __name__ == "__main__":
    sys.exit(main())
