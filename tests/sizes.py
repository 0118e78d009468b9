"""Files of some gigabytes through the built program: right answers, and how much memory each took at most.

A part of tests/soak.py, outside the gate.
"""
import hashlib
import json
import os
import subprocess
import sys
import threading
import time
from array import array

from harness import ONE, ROOT, content, write

sys.path.append(f"{ROOT}/bench")
from bench import Runner

LONGEST = 2_147_483_647
# Structs of 256 bytes: each level has two of the one before, the first two numbers of eight bytes.
STRUCTS = b"struct S0 { a:ulong; b:ulong; } struct S1 { a:S0; b:S0; } struct S2 { a:S1; b:S1; } \
struct S3 { a:S2; b:S2; } struct S4 { a:S3; b:S3; } table T { v:[S4]; } root_type T;"
STRUCT = 256
COUNT = 1_500_000_000 // STRUCT
# A root table whose one slot is a vector that begins at 20, and so its elements at 24.
HEAD = bytes.fromhex("0c000000 0000 0600 0800 0400 06000000 04000000")
NUMBERS = 18_200_000
FIRST = 4_000_000_000
PIECE = 100_000
# Lines of 1 kB, so that 2 GB of them come through a pipe; so many megabytes of memory are enough.
LINES = 2_000_000
LINE = 1_000
ENOUGH = 20


def parted(err):
    """What a program told, and the seconds and the peak in megabytes of which bench/runner.c tells behind it."""
    told, _, taken = err.rstrip(b"\n").rpartition(b"\n")
    _, seconds, peak = taken.split()
    return told + b"\n" if told else b"", float(seconds), int(peak) // 1024


def measured(program, words, **more):
    """A run's status, what it told, its seconds and its greatest resident memory in megabytes."""
    words = [Runner(".").program, program, *words]
    with subprocess.Popen(words, stdin=subprocess.DEVNULL, stderr=subprocess.PIPE, **more) as child:
        out = child.stdout.read() if more.get("stdout") == subprocess.PIPE else b""
        err, seconds, memory = parted(child.stderr.read())
    return child.returncode, out, err, seconds, memory


def tell(tests, what, found, want):
    status, out, err, seconds, memory = found
    tests.tell(what, (status, out, err) == want, f"{status} {out[:99]} {err[:99]}")
    print(f"sizes: {what}: {seconds:.1f} seconds, {memory} MB", flush=True)


def long_files(tests, program):
    write("one.fbs", ONE)
    for name, length in (("longest", LONGEST), ("over", LONGEST + 1)):
        with open(name, "wb") as file:
            file.truncate(length)
    piped = {"stdout": subprocess.PIPE}
    answers = (("longest", b"55 ZeroOffset at 0\n"), ("over", b"112 FileTooLong\n"))
    for name, line in answers:
        words = ["check", "one.fbs", name]
        tell(tests, f"check of the {name} buffer", measured(program, words, **piped), (1, b"", line))
    answers = (("longest", b"2 BadByte at 0\n"), ("over", b"112 FileTooLong\n"))
    for name, line in answers:
        tell(tests, f"check of the {name} schema", measured(program, ["check", name], **piped), (1, b"", line))
    answers = (("longest", b"113 BadJson\n"), ("over", b"112 FileTooLong\n"))
    for name, line in answers:
        words = ["binary", "one.fbs", name, "out"]
        tell(tests, f"binary of the {name} JSON text", measured(program, words, **piped), (1, b"", line))
    os.remove("longest")
    os.remove("over")


def long_vector(tests, program):
    """A vector of structs of 1.5 GB; its first and last numbers are printed where they are."""
    write("s.fbs", STRUCTS)
    piped = {"stdout": subprocess.PIPE}
    length = len(HEAD) + 4 + COUNT * STRUCT
    with open("s.bin", "wb") as file:
        file.write(HEAD + COUNT.to_bytes(4, "little") + (7).to_bytes(8, "little"))
        file.truncate(length)
        file.seek(length - 8)
        file.write((9).to_bytes(8, "little"))
    tell(tests, "check of 1.5 GB", measured(program, ["check", "s.fbs", "s.bin"], **piped), (0, b"ok\n", b""))
    began = time.monotonic()
    words = [program, "json", "s.fbs", "s.bin"]
    with subprocess.Popen(words, stdout=subprocess.PIPE, stderr=subprocess.PIPE) as child:
        front = child.stdout.read(PIECE)
        end, written = front, len(front)
        while piece := child.stdout.read(1 << 20):
            end, written = (end + piece)[-PIECE:], written + len(piece)
        err, status = child.stderr.read(), child.wait()
    good = front.startswith(b'{\n  "v": [\n    {\n      "a": {\n') and b'"a": 7,' in front[:999]
    good = good and b'"b": 9\n' in end[-999:] and end.endswith(b"\n    }\n  ]\n}\n") and (status, err) == (0, b"")
    tests.tell("json of 1.5 GB", good, f"{status} {err} {front[:200]} {end[-200:]}")
    print(f"sizes: json of 1.5 GB: {time.monotonic() - began:.1f} seconds, a text of {written} bytes", flush=True)
    os.truncate("s.bin", length - 1)
    found = measured(program, ["check", "s.fbs", "s.bin"], **piped)
    tell(tests, "check of 1.5 GB without its last byte", found, (1, b"", b"54 OutOfBounds at 20\n"))
    os.remove("s.bin")


def long_text(tests, program):
    """A JSON text of 200 MB, the buffer that it becomes and the text that this prints as."""
    write("v.fbs", b"table T { v:[uint]; } root_type T;")
    with open("v.json", "wb") as file:
        file.write(b'{"v":[')
        for start in range(0, NUMBERS, PIECE):
            comma = b"," if start else b""
            file.write(comma + b",".join(b"%d" % (FIRST + n) for n in range(start, start + PIECE)))
        file.write(b"]}")
    size = os.path.getsize("v.json")
    piped = {"stdout": subprocess.PIPE}
    found = measured(program, ["binary", "v.fbs", "v.json", "v.bin"], **piped)
    tell(tests, f"binary of a JSON text of {size} bytes", found, (0, b"", b""))
    with open("v.bin", "rb") as file:
        good = file.read(len(HEAD) + 4) == HEAD + NUMBERS.to_bytes(4, "little")
        for start in range(0, NUMBERS, PIECE):
            good = good and file.read(4 * PIECE) == array("I", range(FIRST + start, FIRST + start + PIECE)).tobytes()
        good = good and file.read() == b""
    tests.tell("the buffer of a long JSON text", good)
    with open("v.text", "wb") as file:
        found = measured(program, ["json", "v.fbs", "v.bin"], stdout=file)
    tell(tests, "json of many numbers", found, (0, b"", b""))
    with open("v.text", "rb") as file:
        good = file.read(11) == b'{\n  "v": [\n'
        for start in range(0, NUMBERS, PIECE):
            last = start + PIECE == NUMBERS
            want = b",\n".join(b"    %d" % (FIRST + n) for n in range(start, start + PIECE))
            want += b"\n" if last else b",\n"
            good = good and file.read(len(want)) == want
        good = good and file.read() == b"  ]\n}\n"
    tests.tell("the text of many numbers", good)


def many_monsters(tests, program):
    """A JSON text of 1 GB of monsters, on lines of their own: it takes less than 4 GB."""
    folder = os.path.join(ROOT, "examples")
    schema = content(os.path.join(folder, "monster.fbs"))
    write("horde.fbs", schema.replace(b"root_type Monster;", b"table Horde { monsters:[Monster]; } root_type Horde;"))
    # blanks count for no cells, of which there may be 100 million
    monster = json.dumps(json.loads(content(os.path.join(folder, "monster.json"))), indent=8).encode()
    count = 1_000_000_000 // len(monster)
    with open("horde.json", "wb") as file:
        file.write(b'{"monsters":[' + monster)
        for _ in range(count - 1):
            file.write(b"," + monster)
        file.write(b"]}")
    found = measured(program, ["binary", "horde.fbs", "horde.json", "horde.bin"])
    tell(tests, "binary of 1 GB of monsters", found, (0, b"", b""))
    tests.tell("the memory of 1 GB of monsters", found[-1] < 4_000, f"{found[-1]} MB")
    piped = {"stdout": subprocess.PIPE}
    found = measured(program, ["check", "horde.fbs", "horde.bin"], **piped)
    tell(tests, "check of the monsters", found, (0, b"ok\n", b""))
    os.remove("horde.json")
    os.remove("horde.bin")


def many_messages(tests, program):
    """2 GB of JSON lines, made on the fly, become buffers, and these the same lines again."""
    write("line.fbs", b"table T { n:uint; s:string; } root_type T;")
    given, returned = hashlib.sha256(), hashlib.sha256()
    runner = Runner(".").program
    out = {"stdout": subprocess.PIPE, "stderr": subprocess.PIPE}
    words = [runner, program, "binary", "--lines", "line.fbs", "-", "-"]
    began = time.monotonic()
    with subprocess.Popen(words, stdin=subprocess.PIPE, **out) as there:
        words = [runner, program, "json", "--lines", "line.fbs", "-"]
        with subprocess.Popen(words, stdin=there.stdout, **out) as back:
            there.stdout.close()

            def give():
                for start in range(1, LINES, PIECE // 100):
                    texts = (b'{"n":%d,"s":"' % n for n in range(start, start + PIECE // 100))
                    lines = b"".join(text + b"x" * (LINE - len(text) - 3) + b'"}\n' for text in texts)
                    given.update(lines)
                    there.stdin.write(lines)
                there.stdin.close()

            giver = threading.Thread(target=give)
            giver.start()
            while piece := back.stdout.read(1 << 20):
                returned.update(piece)
            giver.join()
            memory = [parted(child.stderr.read())[-1] for child in (there, back)]
    good = given.digest() == returned.digest() and (there.returncode, back.returncode) == (0, 0)
    tests.tell("2 GB of messages there and back", good, f"{there.returncode} {back.returncode}")
    tests.tell("the memory of 2 GB of messages", max(memory) < ENOUGH, f"{memory} MB")
    seconds = time.monotonic() - began
    print(f"sizes: 2 GB of messages there and back: {seconds:.1f} seconds, {memory} MB", flush=True)


def sizes(program):
    def part(tests):
        for one in (long_files, long_vector, long_text, many_monsters, many_messages):
            one(tests, program)

    return part
