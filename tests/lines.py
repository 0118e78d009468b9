#!/usr/bin/env python3
"""Buffers with their length in front, and streams of messages: `--size-prefixed`, `--compact`, `--lines`.

usage: tests/lines.py PROGRAM

Google's flatc, where there is one, reads and makes the same buffers. The last line is 'N passed, M failed'.
"""
import os
import shutil
import subprocess
import sys
import threading
import time

from harness import ONE, SECONDS, SEVEN, SEVEN_TEXT, Tests, content, program_of, write
from hostile import refusing, shim

UNREAD = b"110 FileRead\n"
UNWRITTEN = b"111 FileWrite\n"
# A table with a number of eight bytes, whose alignment counts the size prefix too.
LONG = b"table L { a:ulong; } root_type L;"
TEXT = b"table S { s:string; } root_type S;"
# As FinishSizePrefixed of the C++ library lays it: count, root, six bytes of padding, vtable, table.
LONG_SEVEN = bytes.fromhex("1c000000 10000000 000000000000 0600 0c00 0400 06000000 0700000000000000")
# The same without a count: root, two bytes of padding, vtable, table.
LONG_PLAIN = bytes.fromhex("0c000000 0000 0600 0c00 0400 06000000 0700000000000000")
# A table of ONE without a number: count, root, vtable, table.
EMPTY = bytes.fromhex("0c000000 08000000 0400 0400 04000000")
# In KiB, and how many messages of how many bytes.
MOST_BESIDE = 2048
MANY, LENGTH = 100_000, 1000
SEVERAL = 3
# In seconds.
WAIT = 0.5


def number(n):
    """A buffer of ONE with its length in front: count, root, padding, vtable, table."""
    return bytes.fromhex("14000000 0c000000 0000 0600 0800 0400 06000000") + n.to_bytes(4, "little")


def text_of(n):
    return b'{"a":%d}' % n


def string(text):
    """A buffer of TEXT with its length in front: the text is laid first, and so is last."""
    padded = text + b"\0" * (4 - len(text) % 4)
    body = bytes.fromhex("0c000000 0000 0600 0800 0400 06000000 04000000") + len(text).to_bytes(4, "little") + padded
    return len(body).to_bytes(4, "little") + body


def inputs():
    write("one.fbs", ONE)
    write("long.fbs", LONG)
    write("text.fbs", TEXT)
    write("seven.json", text_of(7))
    write("seven.bin", number(7))
    write("three.json", b"\n".join(map(text_of, (1, 2, 3))) + b"\n")
    write("three.bin", b"".join(map(number, (1, 2, 3))))


def prefixed(tests):
    """One buffer with its length in front."""
    inputs()
    words = ["--size-prefixed", "one.fbs"]
    tests.expect("a buffer", ["binary", *words, "seven.json", "out"], 0, holds={"out": number(7)})
    long = ["binary", "--size-prefixed", "long.fbs", "seven.json", "long"]
    tests.expect("a buffer of eight bytes", long, 0, holds={"long": LONG_SEVEN})
    tests.expect("without a count", ["binary", "long.fbs", "seven.json", "plain"], 0, holds={"plain": LONG_PLAIN})
    tests.expect("its text", ["json", *words, "seven.bin"], 0, SEVEN_TEXT)
    tests.expect("its text, compact", ["json", "--compact", *words, "seven.bin"], 0, b'{"a":7}')
    tests.expect("it is sound", ["check", *words, "seven.bin"], 0, b"ok\n")
    tests.expect("several", ["check", *words, "seven.bin", "out"], 0, b"ok\n")
    tests.expect("into a folder", ["binary", "-o", ".", *words, "seven.json"], 0, holds={"seven.bin": number(7)})
    tests.expect("a text in a folder", ["json", "-o", ".", *words, "out"], 0, holds={"out.json": SEVEN_TEXT})
    compact = ["json", "--compact", "-o", ".", *words, "out"]
    tests.expect("a compact text in a folder", compact, 0, holds={"out.json": b'{"a":7}'})
    tests.expect("a buffer without a count", ["check", *words, "plain"], 1, err=b"54 OutOfBounds at 16\n")
    write("two", number(1) + number(2))
    tests.expect("bytes behind it", ["check", *words, "two"], 1, err=b"54 OutOfBounds at 24\n")
    write("cut", number(1)[:-1])
    tests.expect("a buffer that is cut", ["check", *words, "cut"], 1, err=b"54 OutOfBounds at 0\n")
    write("short", b"\1\0\0")
    tests.expect("less than a count", ["check", *words, "short"], 1, err=b"50 Short at 3\n")


def files(tests):
    """Streams that are files."""
    inputs()
    three = content("three.bin")
    lines = content("three.json")
    tests.expect("to buffers", ["binary", "--lines", "one.fbs", "three.json", "out"], 0, holds={"out": three})
    tests.expect("to lines", ["json", "--lines", "one.fbs", "three.bin"], 0, lines)
    tests.expect("checked", ["check", "--lines", "one.fbs", "three.bin"], 0, b"ok\n")
    write("none", b"")
    tests.expect("no texts", ["binary", "--lines", "one.fbs", "none", "no.bin"], 0, holds={"no.bin": b""})
    tests.expect("no buffers", ["json", "--lines", "one.fbs", "none"], 0)
    tests.expect("no buffers to check", ["check", "--lines", "one.fbs", "none"], 0, b"ok\n")
    write("spaced", b'\n \t\n{ "a" : 1 }\r\n\r\n{"a":2}\n\n\n{"a":3}')
    # to JSON a carriage return is a blank
    tests.expect("blank lines, blanks, carriage returns and a last line without a line feed",
                 ["binary", "--lines", "one.fbs", "spaced", "out"], 0, holds={"out": three})
    write("defaults.bin", b"".join(map(number, (0, 5))))
    defaults = ["json", "--lines", "--defaults-json", "one.fbs", "defaults.bin"]
    tests.expect("with defaults", defaults, 0, b'{"a":0}\n{"a":5}\n')
    write("id.fbs", ONE + b' file_identifier "TEST";')
    tests.expect("raw buffers", ["json", "--raw-binary", "--lines", "id.fbs", "three.bin"], 0, lines)
    long = b"x" * 300_000
    write("long.bin", string(b"a") + string(long) + string(b"b"))
    write("long.json", b'{"s":"a"}\n{"s":"%s"}\n{"s":"b"}\n' % long)
    words = ["binary", "--lines", "text.fbs", "long.json", "out"]
    tests.expect("a long one to a buffer", words, 0, holds={"out": content("long.bin")})
    tests.expect("a long one to a line", ["json", "--lines", "text.fbs", "long.bin"], 0, content("long.json"))
    tests.expect("no input", ["json", "--lines", "one.fbs", "nothing"], 1, err=UNREAD)
    tests.expect("a folder", ["json", "--lines", "one.fbs", "."], 1, err=b"message 1: " + UNREAD)
    tests.expect("a schema that is refused", ["json", "--lines", "none", "three.bin"], 1, err=b"21 BadRoot at 0\n")


def refused(tests):
    """A message that is refused ends the run, or is passed over."""
    inputs()
    write("bad.json", b'{"a":1}\n\n{"b":2}\n{"a":3}\n{"a":}\n{"a":5}\n')
    write("old", b"old")
    words = ["one.fbs", "bad.json"]
    unknown, broken = b"line 3: 74 UnknownMember in type 0\n", b"line 5: 113 BadJson\n"
    tests.expect("OUT stays", ["binary", "--lines", *words, "old"], 1, err=unknown, holds={"old": b"old"})
    tests.expect("OUT isn't made", ["binary", "--lines", *words, "new"], 1, err=unknown, holds={"new": None})
    tests.expect("what is before it is out", ["binary", "--lines", *words, "-"], 1, number(1), unknown)
    others = b"".join(map(number, (1, 3, 5)))
    going = ["binary", "--lines", "--keep-going"]
    tests.expect("the others", [*going, *words, "old"], 1, err=unknown + broken, holds={"old": others})
    tests.expect("the others to a stream", [*going, *words, "-"], 1, others, unknown + broken)
    tests.expect("unknown members", ["binary", "--lines", "--unknown-json", *words, "-"], 1,
                 number(1) + EMPTY + number(3), broken)
    # a table whose vtable would be before the buffer
    bad = number(2)[:-8] + bytes.fromhex("ff000000") + number(2)[-4:]
    fault = b"message 2: 56 BadVtable at 16\n"
    write("bad.bin", number(1) + bad + number(3))
    tests.expect("a line before it", ["json", "--lines", "one.fbs", "bad.bin"], 1, b'{"a":1}\n', fault)
    words = ["json", "--lines", "--keep-going", "one.fbs", "bad.bin"]
    tests.expect("the other lines", words, 1, b'{"a":1}\n{"a":3}\n', fault)
    tests.expect("checked", ["check", "--lines", "one.fbs", "bad.bin"], 1, err=fault)
    tests.expect("all checked", ["check", "--lines", "--keep-going", "one.fbs", "bad.bin"], 1, err=fault)
    done = tests.run(["binary", "--lines", "--explain", "one.fbs", "bad.json", "-"])
    good = done.stdout == number(1) and done.stderr.startswith(unknown) and len(done.stderr) > len(unknown)
    tests.tell("a refusal that is explained", good and done.returncode == 1, f"{done}")


def cut(tests):
    """Streams that end inside a message: each of the first two messages at each length."""
    inputs()
    stream = number(1) + number(2)
    for end in range(len(stream)):
        at, left = divmod(end, 24)
        write("cut", stream[:end])
        lines = b"".join(text_of(n + 1) + b"\n" for n in range(at))
        fault = b"50 Short at %d\n" % left if left < 4 else b"54 OutOfBounds at 0\n"
        told = b"message %d: %s" % (at + 1, fault) if left else b""
        for flags in ([], ["--keep-going"]):
            words = ["json", "--lines", *flags, "one.fbs", "cut"]
            tests.expect(f"a stream of {end} bytes {flags}", words, 1 if left else 0, lines, told)
    # more than the stream has, up to the most that a count can say
    for count in (21, 1 << 20, (1 << 31) - 1, 1 << 31, (1 << 32) - 1):
        write("wrong", number(1) + count.to_bytes(4, "little") + number(2)[4:])
        words = ["json", "--lines", "--keep-going", "one.fbs", "wrong"]
        tests.expect(f"a count of {count}", words, 1, text_of(1) + b"\n", b"message 2: 54 OutOfBounds at 0\n")
    write("small", number(1) + bytes(4) + number(3))
    words = ["json", "--lines", "--keep-going", "one.fbs", "small"]
    tests.expect("a count of nothing", words, 1, b'{"a":1}\n{"a":3}\n', b"message 2: 50 Short at 4\n")


class Filter:
    """A run whose standard input and output are pipes that stay open."""

    def __init__(self, tests, words, **more):
        pipes = {"stdin": subprocess.PIPE, "stdout": subprocess.PIPE, "stderr": subprocess.PIPE, "bufsize": 0}
        self.child = subprocess.Popen([tests.program, *words], **pipes, **more)
        self.watch = threading.Timer(SECONDS, self.child.kill)
        self.watch.start()

    def give(self, text):
        self.child.stdin.write(text)

    def get(self, length):
        """So many bytes, or fewer if no more come."""
        found = b""
        while len(found) < length and (piece := self.child.stdout.read(length - len(found))):
            found += piece
        return found

    def end(self):
        """What else is printed and told, and the status."""
        self.child.stdin.close()
        rest, told = self.child.stdout.read(), self.child.stderr.read()
        status = self.child.wait(SECONDS)
        self.watch.cancel()
        return rest, told, status

    def peak(self):
        """The most memory that it has had in use, in KiB."""
        with open(f"/proc/{self.child.pid}/status", encoding="ascii") as file:
            return next(int(line.split()[1]) for line in file if line.startswith("VmHWM:"))


def filters(tests):
    """Each message is out before the next one is there."""
    inputs()
    ways = (("binary", ["binary", "--lines", "one.fbs", "-", "-"], lambda n: text_of(n) + b"\n", number),
            ("json", ["json", "--lines", "one.fbs", "-"], number, lambda n: text_of(n) + b"\n"))
    for name, words, made, want in ways:
        run = Filter(tests, words)
        for n in range(1, 6):
            text = made(n)
            for piece in (text[:3], text[3:]):
                run.give(piece)
            got = run.get(len(want(n)))
            tests.tell(f"{name} returns message {n}", got == want(n), f"{got}")
        tests.tell(f"{name} ends with its input", run.end() == (b"", b"", 0))
    # a refusal is told at once, too
    run = Filter(tests, ["check", "--lines", "--keep-going", "one.fbs", "-"])
    run.give(number(1) + b"\4\0\0\0\0\0\0\0")
    told = run.child.stderr.readline()
    tests.tell("check tells at once", told.startswith(b"message 2: "), f"{told}")
    tests.tell("and ends with its input", run.end() == (b"", b"", 1))
    there = '"$0" binary --lines one.fbs - - < three.json | "$0" json --lines one.fbs -'
    done = subprocess.run(["bash", "-c", there, tests.program], capture_output=True, timeout=SECONDS, check=False)
    tests.tell("there and back", done.stdout == content("three.json"), f"{done}")


def closed(tests):
    """Pipes that nobody reads, a full device, and nothing to read."""
    inputs()
    for name, words, text in (("binary", ["binary", "--lines", "one.fbs", "three.json", "-"], UNWRITTEN),
                              ("json", ["json", "--lines", "one.fbs", "three.bin"], b"82 WriteFailed after 0\n")):
        with open("/dev/full", "wb") as full:
            tests.expect(f"{name} to a full device", words, 1, err=text, stdout=full)
        end, pipe = os.pipe()
        os.close(end)
        tests.expect(f"{name} to a closed pipe", words, 1, err=text, stdout=pipe)
        os.close(pipe)
    line = '"$0" json --lines one.fbs - <&- 2>&1'
    done = subprocess.run(["bash", "-c", line, tests.program], capture_output=True, timeout=SECONDS, check=False)
    tests.tell("a closed standard input", (done.returncode, done.stdout) == (1, b"message 1: " + UNREAD), f"{done}")
    # a reader that ends early ends the run
    run = Filter(tests, ["json", "--lines", "one.fbs", "-"])
    run.give(number(1))
    run.get(8)
    run.child.stdout.close()
    run.give(number(2))
    told = run.child.stderr.read()
    tests.tell("a reader that ends", (told, run.child.wait(SECONDS)) == (b"82 WriteFailed after 8\n", 1), f"{told}")
    run.watch.cancel()


def memory(tests):
    """100,000 messages of 1 kB through a pipe, and one that says that it is long, take no memory."""
    inputs()
    text = b"x" * (LENGTH - 10)
    line, buffer = b'{"s":"%s"}\n' % text, string(text)
    ways = (("binary", ["binary", "--lines", "text.fbs", "-", "-"], line, buffer),
            ("json", ["json", "--lines", "text.fbs", "-"], buffer, line),
            ("check", ["check", "--lines", "text.fbs", "-"], buffer, b""))
    # what it takes until it waits for its schema
    started = Filter(tests, ["check", "-"])
    time.sleep(WAIT)
    least = started.peak()
    started.end()
    for name, words, made, want in ways:
        run = Filter(tests, words)
        giver = threading.Thread(target=lambda: [run.give(made * 100) for _ in range(MANY // 100)])
        giver.start()
        good = all(run.get(len(want) * 100) == want * 100 for _ in range(MANY // 100))
        giver.join()
        beside = run.peak() - least
        rest, told, status = run.end()
        good = good and (told, status) == (b"", 0) and rest in (b"", b"ok\n")
        tests.tell(f"{MANY} messages: {name}", good, f"{told}, status {status}, {rest}")
        tests.tell(f"the memory of {name}", beside <= MOST_BESIDE, f"{beside} KiB beside {least} KiB")
    run = Filter(tests, ["json", "--lines", "one.fbs", "-"])
    run.give(number(1) + b"\xff\xff\xff\x7f" + bytes(100_000))
    run.get(8)
    beside = run.peak() - least
    tests.tell("a count without its message takes no memory", beside <= MOST_BESIDE, f"{beside} KiB")
    tests.tell("and is cut", run.end() == (b"", b"message 2: 54 OutOfBounds at 0\n", 1))


def growths(tests):
    """Each growth of the heap refused: all before it is whole, and the run ends with a line of memory."""
    inputs()
    library = shim()
    for words, want in ((["binary", "--lines", "one.fbs", "three.json", "-"], list(map(number, (1, 2, 3)))),
                        (["json", "--lines", "one.fbs", "three.bin"], [text_of(n) + b"\n" for n in (1, 2, 3)])):
        whole = [b"".join(want[:n]) for n in range(SEVERAL + 1)]
        for n in range(1, 2000):
            done = tests.run(words, env=refusing(library, f"{n}+", "counts"))
            _, missing = map(int, content("counts").split())
            if not missing:
                break
            ended = done.stdout == whole[-1] if done.returncode == 0 else done.stdout in whole
            told = done.returncode == 0 or (done.returncode == 1 and b" Memory\n" in done.stderr)
            tests.tell(f"{words[0]} without growth {n}", ended and told, f"{done}")
        tests.tell(f"{words[0]} with all its growths", done.stdout == whole[-1], f"{done}")


def misused(tests):
    """Flags that don't go together, and counts of paths."""
    inputs()
    lines = (
        ["binary", "--lines", "-o", ".", "one.fbs", "three.json"],
        ["json", "--lines", "-o", ".", "one.fbs", "three.bin"],
        ["binary", "--lines", "--size-prefixed", "one.fbs", "three.json", "out"],
        ["json", "--lines", "--size-prefixed", "one.fbs", "three.bin"],
        ["check", "--lines", "--size-prefixed", "one.fbs", "three.bin"],
        ["json", "--lines", "--compact", "one.fbs", "three.bin"],
        ["binary", "--keep-going", "one.fbs", "seven.json", "out"],
        ["json", "--keep-going", "one.fbs", "seven.bin"],
        ["check", "--keep-going", "one.fbs", "seven.bin"],
        ["check", "--lines", "one.fbs"],
        ["check", "--lines", "one.fbs", "three.bin", "three.bin"],
        ["json", "--lines", "one.fbs", "three.bin", "three.bin"],
        ["binary", "--lines", "one.fbs", "three.json"],
        ["binary", "--lines", "one.fbs", "three.json", "out", "more"],
        ["binary", "--lines", "-", "-", "out"],
        ["json", "--lines", "-", "/dev/stdin"],
        ["conform", "--lines", "one.fbs", "one.fbs"],
        ["binary", "--compact", "one.fbs", "seven.json", "out"],
        ["conform", "--size-prefixed", "one.fbs", "one.fbs"],
        ["inspect", "one.fbs"],
        ["inspect", "one.fbs", "seven.bin", "seven.bin"],
        ["inspect", "--header", "one.fbs", "seven.bin"],
        ["inspect", "--header", "--raw-binary", "seven.bin"],
        ["inspect", "--header", "--size-prefixed", "seven.bin"],
        ["inspect", "-", "-"],
    )
    for words in lines:
        done = tests.run(words)
        good = done.returncode == 2 and not done.stdout and done.stderr.startswith(b"error: ")
        good = good and f"\nUsage: flatc {words[0]} ".encode() in done.stderr
        tests.tell(f"a misuse: {' '.join(words)}", good, f"{done}")
    tests.tell("nothing is written", content("out") is None)
    tests.expect("an input is OUT", ["binary", "--lines", "one.fbs", "three.json", "./three.json"], 1, err=UNWRITTEN)
    for job in ("binary", "json", "check"):
        done = tests.run([job, "--help"])
        has = all(flag in done.stdout for flag in (b"--lines", b"--keep-going", b"--size-prefixed"))
        tests.tell(f"{job} --help has the flags", has, f"{done}")


def beside_flatc(tests):
    """Google's flatc reads what this program makes, and the other way round."""
    google = shutil.which("flatc")
    if not google:
        return
    seven = text_of(7)
    for name, schema, text in (("one", ONE, seven), ("long", LONG, seven), ("text", TEXT, b'{"s":"some text"}')):
        write(f"{name}.fbs", schema)
        write(f"{name}.json", text)
        ours = tests.run(["binary", "--size-prefixed", f"{name}.fbs", f"{name}.json", "-"]).stdout
        subprocess.run([google, "-b", "--size-prefixed", f"{name}.fbs", f"{name}.json"], check=True)
        theirs = content(f"{name}.bin")
        tests.expect(f"flatc's {name}", ["check", "--size-prefixed", f"{name}.fbs", f"{name}.bin"], 0, b"ok\n")
        tests.expect(f"flatc's {name} twice", ["check", "--lines", f"{name}.fbs", "-"], 0, b"ok\n",
                     stdin=stream_of(theirs + theirs))
        os.mkdir(f"{name}.ours")
        write(f"{name}.ours/{name}.bin", ours)
        words = [google, "-t", "--strict-json", "--raw-binary", "--size-prefixed", f"{name}.fbs", "--"]
        done = subprocess.run([*words, f"{name}.ours/{name}.bin"], capture_output=True, check=False)
        back = content(f"{name}.json")
        same = b"".join(back.split()) == b"".join(text.split())
        tests.tell(f"flatc reads {name}", done.returncode == 0 and same, f"{done}")


def stream_of(text):
    write("stream", text)
    return open("stream", "rb")


def main():
    tests = Tests("lines", program_of(sys.argv, __doc__))
    parts = (prefixed, files, refused, cut, filters, closed, memory, growths, misused, beside_flatc)
    return tests.main(parts)


if __name__ == "__main__":
    sys.exit(main())
