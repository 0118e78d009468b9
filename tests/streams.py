#!/usr/bin/env python3
"""Standard input and standard output in place of paths: `-`, and the paths of the descriptors.

usage: tests/streams.py PROGRAM

The last line is 'N passed, M failed'.
"""
import os
import shlex
import socket
import subprocess
import sys
import threading

from harness import ONE, SECONDS, SEVEN, SEVEN_TEXT, Tests, content, program_of, write

JSON = b'{"a":7}'
INPUTS = ("-", "/dev/stdin", "/dev/fd/0", "/proc/self/fd/0")
OUTPUTS = ("-", "/dev/stdout", "/dev/fd/1", "/proc/self/fd/1")
UNREAD = b"110 FileRead\n"
UNWRITTEN = b"111 FileWrite\n"
# A vector of numbers, so that some megabytes go through a pipe.
VECTOR = b"table T { v:[uint]; } root_type T;"
COUNT = 500_000


def inputs():
    write("one.fbs", ONE)
    write("seven.json", JSON)
    write("seven.bin", SEVEN)


def given(text):
    """Standard input is a pipe with this text."""
    read, written = os.pipe()

    def give():
        try:
            with os.fdopen(written, "wb") as pipe:
                pipe.write(text)
        except BrokenPipeError:
            pass

    threading.Thread(target=give).start()
    return os.fdopen(read, "rb")


def fed(tests, what, words, text, status, out=b"", err=b"", holds=None):
    with given(text) as pipe:
        tests.expect(what, words, status, out, err, holds, stdin=pipe)


def read(tests):
    """Each input of each line is standard input."""
    inputs()
    for name in INPUTS:
        fed(tests, f"JSON is {name}", ["binary", "one.fbs", name, "out.bin"], JSON, 0, holds={"out.bin": SEVEN})
        fed(tests, f"the schema of binary is {name}", ["binary", name, "seven.json", "o.bin"], ONE, 0,
            holds={"o.bin": SEVEN})
        fed(tests, f"BIN of json is {name}", ["json", "one.fbs", name], SEVEN, 0, SEVEN_TEXT)
        fed(tests, f"the schema of json is {name}", ["json", name, "seven.bin"], ONE, 0, SEVEN_TEXT)
        fed(tests, f"BIN of check is {name}", ["check", "one.fbs", name], SEVEN, 0, b"ok\n")
        fed(tests, f"a schema to check is {name}", ["check", name], ONE, 0, b"ok\n")
        fed(tests, f"OLD is {name}", ["conform", name, "one.fbs"], ONE, 0, b"conforms\n")
        fed(tests, f"NEW is {name}", ["conform", "one.fbs", name], ONE, 0, b"conforms\n")
    fed(tests, "a refusal", ["check", "one.fbs", "-"], SEVEN[:16], 1, err=b"54 OutOfBounds at 16\n")
    fed(tests, "an empty standard input", ["check", "one.fbs", "-"], b"", 1, err=b"50 Short at 0\n")
    fed(tests, "behind two dashes", ["check", "--", "one.fbs", "-"], SEVEN, 0, b"ok\n")
    tests.tell("no file is called -", content("-") is None)


def written(tests):
    """OUT is standard output."""
    inputs()
    for name in OUTPUTS:
        tests.expect(f"OUT is {name}", ["binary", "one.fbs", "seven.json", name], 0, SEVEN)
        fed(tests, f"from a pipe to {name}", ["binary", "one.fbs", "-", name], JSON, 0, SEVEN)
    tests.expect("JSON that is refused", ["binary", "one.fbs", "one.fbs", "-"], 1, err=b"113 BadJson\n")
    with open("/dev/full", "wb") as full:
        tests.expect("a full device", ["binary", "one.fbs", "seven.json", "-"], 1, err=UNWRITTEN, stdout=full)
    end, pipe = os.pipe()
    os.close(end)
    tests.expect("a closed pipe", ["binary", "one.fbs", "seven.json", "-"], 1, err=UNWRITTEN, stdout=pipe)
    os.close(pipe)
    with open("seven.json", "ab") as out:
        words = ["binary", "one.fbs", "seven.json", "-"]
        tests.expect("an input is standard output", words, 1, err=UNWRITTEN, holds={"seven.json": JSON}, stdout=out)
    tests.tell("no file is called -", content("-") is None)


def named(tests):
    """A file of that name."""
    inputs()
    write("-", ONE)
    tests.expect("a schema called -", ["check", "./-"], 0, b"ok\n")
    tests.expect("OUT called -", ["binary", "one.fbs", "seven.json", "./-"], 0, holds={"-": SEVEN})
    tests.expect("BIN called -", ["json", "one.fbs", "./-"], 0, SEVEN_TEXT)


def shell(tests, what, line, status, out):
    """A line of the shell, with the program as $flatc."""
    text = f"flatc={shlex.quote(tests.program)}; {line}"
    pipes = {"stdin": subprocess.DEVNULL, "capture_output": True, "timeout": SECONDS}
    done = subprocess.run(["bash", "-c", text], check=False, **pipes)
    tests.tell(what, (done.returncode, done.stdout) == (status, out), f"{done}")


def pipelines(tests):
    inputs()
    write("two.json", b'{"a":2}')
    write("old", b"old")
    two = SEVEN[:-4] + bytes.fromhex("02000000")
    both = 'cat seven.json | "$flatc" binary one.fbs - - | "$flatc" json one.fbs -'
    shell(tests, "there and back in a pipeline", both, 0, SEVEN_TEXT)
    twice = '"$flatc" binary one.fbs seven.json - >> old; "$flatc" binary one.fbs two.json - >> old; cat old'
    shell(tests, "appended to a file", twice, 0, b"old" + SEVEN + two)
    for name in ("-", "/dev/stdout"):
        loop = f'for f in seven two; do "$flatc" binary one.fbs $f.json {name}; done > all; cat all'
        shell(tests, f"a loop into one file by {name}", loop, 0, SEVEN + two)
    # a file is read from where the descriptor is, not from its start
    write("shifted", b"old" + SEVEN)
    done = 'exec 3< shifted; dd bs=1 count=3 <&3 2> dd.log > front; "$flatc" json one.fbs - <&3'
    shell(tests, "a file from its middle", done, 0, SEVEN_TEXT)
    shell(tests, "a closed standard input", '"$flatc" check one.fbs - <&- 2>&1', 1, UNREAD)
    shell(tests, "a closed standard output", '"$flatc" binary one.fbs seven.json - 2>&1 >&-', 1, UNWRITTEN)
    shell(tests, "a standard input to write to", '"$flatc" check one.fbs - 2>&1 0> o', 1, UNREAD)
    shell(tests, "a folder as standard input", '"$flatc" check one.fbs - 2>&1 < .', 1, UNREAD)
    shell(tests, "a closed standard error", '"$flatc" check one.fbs one.fbs 2>&-', 1, b"")


def sockets(tests):
    """Streams that can't be opened by a path."""
    inputs()
    ours, theirs = socket.socketpair()
    with ours, theirs:
        ours.sendall(JSON)
        ours.shutdown(socket.SHUT_WR)
        tests.expect("from a socket into it", ["binary", "one.fbs", "-", "-"], 0, None, stdin=theirs, stdout=theirs)
        theirs.close()
        tests.tell("the socket brings the buffer", ours.recv(1000) == SEVEN)
    for name in INPUTS:
        ours, theirs = socket.socketpair()
        with ours, theirs:
            ours.sendall(SEVEN)
            ours.close()
            tests.expect(f"{name} is a socket", ["json", "one.fbs", name], 0, SEVEN_TEXT, stdin=theirs)


def long(tests):
    """Some megabytes through pipes."""
    write("vector.fbs", VECTOR)
    text = b'{"v":[' + b",".join(b"%d" % n for n in range(COUNT)) + b"]}"
    # root offset, vtable, table, count, and four bytes a number
    numbers = b"".join(n.to_bytes(4, "little") for n in range(COUNT))
    with given(text) as pipe:
        done = tests.run(["binary", "vector.fbs", "-", "-"], stdin=pipe)
    good = done.returncode == 0 and done.stdout.endswith(numbers) and len(done.stdout) == 4 * COUNT + 24
    tests.tell("a long buffer", good, f"status {done.returncode}, {len(done.stdout)} bytes, {done.stderr[:99]}")


def misused(tests):
    """Standard input is read once."""
    inputs()
    lines = [["binary", "-", "-", "out"], ["json", "/dev/fd/0", "/proc/self/fd/0"], ["check", "-", "-"]]
    lines += [["conform", "-", name] for name in INPUTS]
    lines += [["check", "one.fbs", "-", "seven.bin", "/dev/stdin"], ["binary", "-o", ".", "-", "-"]]
    for words in lines:
        done = tests.run(words)
        good = done.returncode == 2 and not done.stdout and done.stderr.startswith(b"error: ")
        tests.tell(f"a misuse: {' '.join(words)}", good and b"\nUsage: flatc " in done.stderr, f"{done}")
    tests.tell("nothing is written", content("out") is None)
    fed(tests, "the schema in, the buffer out", ["binary", "-", "seven.json", "-"], ONE, 0, SEVEN)


def main():
    tests = Tests("streams", program_of(sys.argv, __doc__))
    return tests.main((read, written, named, pipelines, sockets, long, misused))


if __name__ == "__main__":
    sys.exit(main())
