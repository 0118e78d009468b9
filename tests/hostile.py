#!/usr/bin/env python3
"""The built program where memory, pipes and stack run out, and on buffers that are damaged.

usage: tests/hostile.py PROGRAM

tests/refuse.c, preloaded, refuses growths of the heap; the C compiler has to be there (cc, or what CC names). The last
line is 'N passed, M failed'.
"""
import json
import os
import random
import re
import resource
import shlex
import struct
import subprocess
import sys
from concurrent.futures import ThreadPoolExecutor

from harness import ONE, ROOT, SEVEN, SEVEN_TEXT, SMALL_STACK, Tests, content, program_of, write

# Each layer's line where memory runs out.
MEMORY = re.compile(rb"(?:(?:old: |new: )?(?:7|23|32) Memory|(?:41|64|80|84|114) Memory)\n")
# Growths that are only asked for ahead, so that a run goes on where they are refused: by the standard library when the
# words are collected.
ASKED_AHEAD = 1
# Growths of help's text under the name that the program was called by: without memory for it help has the usual name.
NAMED = 20
GROWTHS = 20_000
DAMAGES = 250
SEED = 35
# The most cells that a value has, and the fault of a buffer's string with one more.
CELLS = 100_000_000
AT_STRING = b"63 TooManyCells at 20\n"
# Where the buffer with a union has its code.
UNION_CODE = 19
READ_FAULT = re.compile(rb"(5[0-9]|6[0-3]) [A-Z][A-Za-z0-9]+ at [0-9]+( slot [0-9]+)?\n")
UNNAMED = re.compile(rb"81 NoMemberName in type [0-9]+ slot [0-9]+\n")


def told_of(done):
    return f"status {done.returncode}, printed {done.stdout[:99]!r}, told {done.stderr[:99]!r}"


def shim():
    """tests/refuse.c as a library."""
    words = shlex.split(os.environ.get("CC") or "cc")
    source = os.path.join(ROOT, "tests", "refuse.c")
    subprocess.run([*words, "-O1", "-shared", "-fPIC", "-o", "refuse.so", source, "-ldl"], check=True)
    return os.path.abspath("refuse.so")


def refusing(library, wish, counts):
    return {**os.environ, "LD_PRELOAD": library, "REFUSE": wish, "REFUSE_COUNT": counts}


def is_short_of_memory(done, front):
    """Whether a run ended with the line that memory ran out, and printed nothing but a part of its text."""
    told = done.returncode == 1 and MEMORY.fullmatch(done.stderr)
    return told and front.startswith(done.stdout) and (not front or done.stdout != front)


def refused_growths(tests, library, name, words, out, made):
    """Each growth of a job refused, one alone and all from it on; returns how many there are.

    `made` is what the last word's file holds afterwards, where there is one. Each job has a folder of its own.
    """
    os.mkdir(name)
    makes = os.path.join(name, words[-1]) if made is not None else ""
    counts = os.path.abspath(f"{name}.count")

    def run(wish):
        if makes and os.path.exists(makes):
            os.remove(makes)
        done = tests.run(words, env=refusing(library, wish, counts), cwd=name)
        counted, refused = map(int, content(counts).split())
        whole = (done.returncode, done.stdout, done.stderr) == (0, out, b"") and (not makes or content(makes) == made)
        return done, whole, counted, refused

    done, whole, total, _ = run("0")
    tests.tell(f"{name} with its growths counted", whole, told_of(done))
    absorbed = 0
    for n in range(1, GROWTHS):
        ended = 0
        for wish in (f"{n}", f"{n}+"):
            done, whole, _, refused = run(wish)
            if refused == 0:
                ended += 1
                tests.tell(f"{name} with {wish} refused, which isn't reached", whole, told_of(done))
            elif whole and (wish == f"{n}" or name == "help"):
                absorbed += wish == f"{n}"
            else:
                good = is_short_of_memory(done, out) and not os.listdir(name)
                tests.tell(f"{name} with growth {wish} refused", good, told_of(done))
        if ended == 2:
            # the file beside OUT is named by the process's number, and one more digit may be one more growth
            near = abs(n - 1 - total) <= (1 if makes else 0)
            tests.tell(f"the growths of {name}", near, f"{n - 1} refused, {total} counted")
            break
    most = ASKED_AHEAD + (NAMED if name == "help" else 0)
    tests.tell(f"{name} goes on where memory is only asked for ahead", absorbed <= most, f"{absorbed}")
    return total


def growths(tests):
    library = shim()
    write("one.fbs", ONE)
    write("seven.json", b'{"a":7}')
    write("seven.bin", SEVEN)
    monster = [os.path.join(ROOT, "examples", name) for name in ("monster.fbs", "monster_v2.fbs")]
    text = os.path.join(ROOT, "examples", "monster.json")
    bytes_wanted = bytes.fromhex(open(os.path.join(ROOT, "tests", "monster.hex"), encoding="ascii").read())
    text_wanted = content(os.path.join(ROOT, "tests", "monster.printed.json"))
    write("monster.bin", bytes_wanted)
    usage = tests.run(["--help"]).stdout
    jobs = (
        ("example", [], SEVEN_TEXT, None),
        ("help", ["--help"], usage, None),
        ("binary", ["binary", "../one.fbs", "../seven.json", "out.bin"], b"", SEVEN),
        ("json", ["json", "../one.fbs", "../seven.bin"], SEVEN_TEXT, None),
        ("check", ["check", "../one.fbs", "../seven.bin"], b"ok\n", None),
        ("conform", ["conform", "../one.fbs", "../one.fbs"], b"conforms\n", None),
        ("monster-binary", ["binary", monster[0], text, "monster.out"], b"", bytes_wanted),
        ("monster-json", ["json", monster[0], "../monster.bin"], text_wanted, None),
        ("monster-conform", ["conform", *monster], b"conforms\n", None),
    )
    with ThreadPoolExecutor(os.cpu_count()) as pool:
        rows = [pool.submit(refused_growths, tests, library, *job) for job in jobs]
        told = ", ".join(f"{row.result()} of {job[0]}" for row, job in zip(rows, jobs))
    print(f"hostile: each growth refused: {told}")


def pipes(tests):
    """A pipe whose reader goes away after so many bytes: the line says how many were written, no fewer."""
    count = 60_000
    write("v.fbs", b"table T { v:[uint]; } root_type T;")
    numbers = [7 * n for n in range(count)]
    write("v.json", json.dumps({"v": numbers}).encode())
    tests.expect("a long vector", ["binary", "v.fbs", "v.json", "v.bin"], 0)
    text = b'{\n  "v": [\n' + b",\n".join(b"    %d" % n for n in numbers) + b"\n  ]\n}\n"
    tests.expect("its text", ["json", "v.fbs", "v.bin"], 0, out=text)
    words = [tests.program, "json", "v.fbs", "v.bin"]
    for most in (0, 1, 2, 100, 4095, 4096, 4097, 65_535, 65_536, 65_537, 131_072, 200_000, len(text) - 200_000):
        with subprocess.Popen(words, stdin=subprocess.DEVNULL, stdout=subprocess.PIPE, stderr=subprocess.PIPE) as child:
            front = child.stdout.read(most)
            child.stdout.close()
            err = child.stderr.read()
            status = child.wait()
        told = re.fullmatch(rb"82 WriteFailed after ([0-9]+)\n", err)
        good = status == 1 and front == text[:most] and told and most <= int(told.group(1)) < len(text)
        tests.tell(f"a pipe that closes after {most}", good, f"{status} {err}")


def damaged(tests):
    """`json` refuses exactly where `check` does, with the same line, or where a code has no name."""
    path = os.path.join(ROOT, "crates", "test_rows", "data", "buffers_damaged.jsonl")
    with open(path, encoding="utf-8") as file:
        rows = [json.loads(line) for line in file]
    tests.tell("the buffers that are damaged", len(rows) == 9, f"{len(rows)}")
    dice = random.Random(SEED)
    held = unnamed = refused = 0
    for k in range(DAMAGES):
        row = rows[k % len(rows)]
        whole = bytearray.fromhex(row["bytes"])
        if "union" in row["schema"] and dice.random() < 0.5:
            whole[UNION_CODE] = dice.randrange(256)
        elif dice.random() < 0.2:
            del whole[dice.randrange(len(whole)) :]
        else:
            for _ in range(dice.choice((1, 1, 2, 3))):
                whole[dice.randrange(len(whole))] = dice.choice((0, 1, 2, 3, 4, 8, 127, 128, 255, dice.randrange(256)))
        write("d.fbs", row["schema"].encode())
        write("d.bin", whole)
        check = tests.run(["check", "d.fbs", "d.bin"])
        shown = tests.run(["json", "d.fbs", "d.bin"])
        if check.returncode == 0:
            good = (check.stdout, check.stderr) == (b"ok\n", b"")
            if shown.returncode == 0:
                held += 1
                good = good and shown.stdout.startswith(b"{") and shown.stdout.endswith(b"}\n") and not shown.stderr
            else:
                unnamed += 1
                good = good and shown.returncode == 1 and not shown.stdout and UNNAMED.fullmatch(shown.stderr)
        else:
            refused += 1
            good = check.returncode == 1 and not check.stdout and READ_FAULT.fullmatch(check.stderr)
            good = good and (shown.returncode, shown.stdout, shown.stderr) == (1, b"", check.stderr)
        tests.tell(f"damage {k} of {row['row']}: {bytes(whole).hex()}", good, f"{told_of(check)}, {told_of(shown)}")
    tests.tell("each outcome was met", min(held, unnamed, refused) > 0, f"{held} {unnamed} {refused}")
    print(f"hostile: {2 * DAMAGES} runs on damaged buffers: {held} held, {unnamed} without a name, {refused} refused")


def small_stack():
    resource.setrlimit(resource.RLIMIT_STACK, (SMALL_STACK, SMALL_STACK))


def nested_bytes(depth):
    """So many tables in one another, which share a vtable but for the last."""
    head = bytes.fromhex("10000000 0600 0800 0400 0400 0400 0000")
    tables = b"".join((12 + 8 * k).to_bytes(4, "little") + (4).to_bytes(4, "little") for k in range(depth - 1))
    return head + tables + (6 + 8 * (depth - 1)).to_bytes(4, "little")


def nested_json(depth):
    return b'{"n":' * (depth - 1) + b"{}" + b"}" * (depth - 1)


def nested_text(depth):
    lines = [b"{"] + [b"  " * k + b'"n": {' for k in range(1, depth)]
    lines[-1] += b"}"
    return b"\n".join(lines + [b"  " * k + b"}" for k in range(depth - 2, -1, -1)]) + b"\n"


def tables_nested(tests):
    write("n.fbs", b"table N { n:N; } root_type N;")
    small = {"preexec_fn": small_stack}
    for depth in (2, 64, 65, 127):
        write("n.bin", nested_bytes(depth))
        write("n.json", nested_json(depth))
        make = ["binary", "n.fbs", "n.json", "n.out"]
        if depth <= 64:
            tests.expect(f"a buffer of depth {depth}", ["check", "n.fbs", "n.bin"], 0, out=b"ok\n", **small)
            tests.expect(f"its text of depth {depth}", ["json", "n.fbs", "n.bin"], 0, out=nested_text(depth), **small)
            tests.expect(f"JSON of depth {depth}", make, 0, **small)
            tests.expect(f"JSON of depth {depth} back", ["json", "n.fbs", "n.out"], 0, out=nested_text(depth), **small)
            os.remove("n.out")
        else:
            for job in ("check", "json"):
                tests.expect(f"{job} of depth {depth}", [job, "n.fbs", "n.bin"], 1, err=b"62 TooDeep at 528\n", **small)
            err = b"78 TooDeep in type 0 slot 0\n"
            tests.expect(f"JSON of depth {depth}", make, 1, err=err, holds={"n.out": None}, **small)
    for depth in (128, 129, 100_000):
        write("n.json", nested_json(depth))
        tests.expect(f"JSON of depth {depth}", make, 1, err=b"113 BadJson\n", holds={"n.out": None}, **small)
    write("n.json", b"[" * 1_000_000)
    tests.expect("a million brackets", make, 1, err=b"113 BadJson\n", holds={"n.out": None}, **small)


def types(count):
    """Schemas of so many types, each of a kind, and one whose types use one another."""
    root = "table R { a:int; } root_type R;"
    yield "tables", root + "".join(f" table T{k} {{ a:int; }}" for k in range(count))
    yield "structs", root + "".join(f" struct S{k} {{ a:int; }}" for k in range(count))
    yield "enums", root + "".join(f" enum E{k}:ubyte {{ A }}" for k in range(count))
    yield "unions", root + "".join(f" union U{k} {{ R }}" for k in range(count))
    yield "namespaces", root + "".join(f" namespace N{k}; table T {{ a:int; }}" for k in range(count))
    yield "a chain of tables", root + "".join(f" table T{k} {{ t:T{(k + 1) % count}; }}" for k in range(count))


def many_types(tests):
    small = {"preexec_fn": small_stack}
    write("r.json", b'{"a":7}')
    for name, text in types(100_000):
        write("r.fbs", text.encode())
        tests.expect(f"100,000 {name}", ["check", "r.fbs"], 0, out=b"ok\n", **small)
    words = ["binary", "r.fbs", "r.json", "r.bin"]
    tests.expect("binary under 100,000 types", words, 0, holds={"r.bin": SEVEN}, **small)
    tests.expect("json under 100,000 types", ["json", "r.fbs", "r.bin"], 0, out=SEVEN_TEXT, **small)
    tests.expect("check under 100,000 types", ["check", "r.fbs", "r.bin"], 0, out=b"ok\n", **small)
    tests.expect("conform of 100,000 types", ["conform", "r.fbs", "r.fbs"], 0, out=b"conforms\n", **small)


def structs_nested(tests):
    """A struct of 10,000 levels through each job; tests/command.py prints one whole, and a deeper one."""
    small = {"preexec_fn": small_stack}
    inner = "".join(f"struct S{k} {{ a:S{k - 1}; }} " for k in range(1, 10_000))
    write("c.fbs", f"struct S0 {{ a:ubyte; }} {inner}table T {{ s:S9999; }} root_type T;".encode())
    write("c.bin", bytes.fromhex("0c000000 0600 0500 0400 0000 08000000 2a"))
    write("c.json", b"{}")
    write("d.json", b'{"s":' + b'{"a":' * 100 + b"1" + b"}" * 101)
    tests.expect("check of a chain", ["check", "c.fbs"], 0, out=b"ok\n", **small)
    tests.expect("check of a chain's buffer", ["check", "c.fbs", "c.bin"], 0, out=b"ok\n", **small)
    tests.expect("conform of a chain", ["conform", "c.fbs", "c.fbs"], 0, out=b"conforms\n", **small)
    made = bytes.fromhex("08000000 0400 0400 04000000")
    tests.expect("binary without the struct", ["binary", "c.fbs", "c.json", "c.out"], 0, holds={"c.out": made}, **small)
    # its innermost object has a number where the struct of that level is wanted
    done = tests.run(["binary", "c.fbs", "d.json", "d.out"], **small)
    good = done.returncode == 1 and re.fullmatch(rb"70 WrongShape in type [0-9]+( slot [0-9]+)?\n", done.stderr)
    tests.tell("binary with a struct cut off", good, told_of(done))
    words = [tests.program, "json", "c.fbs", "c.bin"]
    with subprocess.Popen(words, stdout=subprocess.PIPE, stderr=subprocess.PIPE, **small) as child:
        front = child.stdout.read(1_000_000)
        child.stdout.close()
        err, status = child.stderr.read(), child.wait()
    want = b'{\n  "s": {\n' + b"".join(b"  " * k + b'"a": {\n' for k in range(2, 2000))
    good = front == want[:1_000_000] and status == 1 and err.startswith(b"82 WriteFailed after ")
    tests.tell("json of a chain, cut after a megabyte", good, f"{status} {err}")


def string_buffer(count):
    """A buffer of a table with a string of `count` bytes."""
    return struct.pack("<IHHHHiII", 12, 6, 8, 4, 0, 8, 4, count) + b"a" * count + b"\0"


def cells(tests):
    """As many cells as are allowed, and one more: a table, a string and the string's bytes."""
    write("s.fbs", b"table T { s:string; } root_type T;")
    for count, lines in ((CELLS - 2, (b"", b"")), (CELLS - 1, (b"79 TooManyCells in type 0 slot 0\n", AT_STRING))):
        status = 1 if lines[0] else 0
        write("long.json", b'{"s":"' + b"a" * count + b'"}')
        write("long.bin", string_buffer(count))
        what = f"{count + 2} cells"
        tests.expect(f"{what} encoded", ["binary", "s.fbs", "long.json", "out.bin"], status, err=lines[0])
        ok = b"" if status else b"ok\n"
        tests.expect(f"{what} verified", ["check", "s.fbs", "long.bin"], status, ok, lines[1])
        text = b"" if status else b'{\n  "s": "' + b"a" * count + b'"\n}\n'
        tests.expect(f"{what} decoded", ["json", "s.fbs", "long.bin"], status, text, lines[1])


def main():
    tests = Tests("hostile", program_of(sys.argv, __doc__))
    return tests.main((growths, pipes, damaged, tables_nested, many_types, structs_nested, cells))


if __name__ == "__main__":
    sys.exit(main())
