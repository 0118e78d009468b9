#!/usr/bin/env python3
"""Runs the built program with words and files, and compares what it prints, its status and its files.

usage: tests/command.py PROGRAM

The last line is 'N passed, M failed'. A row that takes over two minutes fails.
"""
import os
import re
import resource
import shutil
import subprocess
import sys
import tempfile
import threading

ROOT = os.path.dirname(os.path.dirname(os.path.abspath(__file__)))
sys.path.append(f"{ROOT}/tools")

from version import version  # noqa: E402
LONGEST = 2_147_483_647
# pairs.txt has as many pairs at least.
PAIRS = 100
NOBODY = 65534
SECONDS = 120
CUT_SECONDS = 20
# In bytes: a stack, and how much of a long text is read.
SMALL_STACK = 256 * 1024
FRONT = 1_000_000

ONE = b"table T { a:int; } root_type T;"
SEVEN = bytes.fromhex("0c000000 0000 0600 0800 0400 06000000 07000000")
SEVEN_TEXT = b'{\n  "a": 7\n}\n'
DEFAULT = bytes.fromhex("08000000 0400 0400 04000000")
STRUCTS = b"struct P { x:int; c:int; } table T { p:P; } root_type T;"
UNION = (
    b"table A { x:int; } table B { y:int; } union U { A } union V { A, B } "
    b"table T { u:U; } table W { v:V; } root_type %s;"
)

FILES = {
    "one.fbs": ONE,
    "two.fbs": b"table T { a:int = 2; } root_type T;",
    "one_b.fbs": b"table T { a:int; b:int; } root_type T;",
    "one_c.fbs": b"table T { a:int; b:int; c:int; } root_type T;",
    "moved.fbs": b"table T { b:int; a:int; } root_type T;",
    "line\nfeed.fbs": b"table T { a:int = 2; } root_type T;",
    "seven.json": b'{"a":7}',
    "seven.bin": SEVEN,
    "bad.json": b'{"a":',
    "text.json": b'{"a":"x"}',
    "more.json": b'{"a":7,"b":8}',
    "cut.bin": SEVEN[:16],
    "empty": b"",
    "test.fbs": ONE + b' file_identifier "TEST";',
    "other.bin": bytes.fromhex("0c000000 55455354 0400 0400 04000000"),
    "default.bin": DEFAULT,
    "-default.bin": DEFAULT,
    "structs.fbs": STRUCTS,
    "structs.json": b'{"p":{"x":1}}',
    "union_old.fbs": UNION % b"T",
    "union_new.fbs": UNION.replace(b"u:U", b"u:V") % b"T",
    "union.json": b'{"u_type":"B","u":{"y":1}}',
    "-dash.fbs": ONE,
    "not_utf8.fbs": b"table T { a:int; } \xff",
    "not_utf8.json": b'{"a":7} \xff',
    "long.json": b'{"a":' + b" " * 3_000_000 + b"7}",
}

# Lines that are no command: too few paths or too many, words that don't go together, one that no command has, or
# standard input twice.
MISUSED = """\
json s
conform s
what
json s b c
binary s j
binary s j o p
binary -o d s
check -o d s b
check - -
conform /dev/stdin /dev/fd/0
binary -o d - /proc/self/fd/0
check --what s
explain 1 2
explain --explain 1
json --lines --compact s b
binary --lines -o d s j
check --lines s
check --keep-going s b
inspect b
inspect --header s b
inspect --header --raw-binary b
inspect - -
conform a b c
conform --chain
conform --chain a
conform --chain --old-name n a b
conform --chain - a -
conform --chain a /dev/stdin b -
conform --schemas a b
check --schemas
check --schemas - a -
check --schemas --raw-binary s
check --schemas --size-prefixed s
check --schemas --lines s b
check --schemas --keep-going s
check --schemas --lines --keep-going s b
check --chain a b""".splitlines()

# Lines that are no command, and what the error says.
ERRORS = [
    (["conform", "a", "b", "c"], b"unexpected argument 'c' found"),
    (["conform", "--chain", "--old-name", "n", "a", "b"],
     b"the argument '--chain' cannot be used with '--old-name <NAME>'"),
    (["conform", "--chain", "-", "-"], b"standard input is read once, and two paths name it"),
    (["check", "--schemas", "--raw-binary", "s"], b"the argument '--schemas' cannot be used with '--raw-binary'"),
    (["check", "--schemas", "--keep-going", "s"], b"the argument '--schemas' cannot be used with '--keep-going'"),
    ([b"check", b"\xff.fbs"], b"argument 2 isn't valid UTF-8: '\\xff.fbs'"),
    ([b"check", b"--", b"a.fbs", b"b\xc3\nc"], b"argument 4 isn't valid UTF-8: 'b\\xc3\\u{a}c'"),
]

FORMATS = ("line", "human", "short", "json")

passed = 0
failed = 0


def tell(name, good, what=""):
    global passed, failed
    if good:
        passed += 1
    else:
        failed += 1
        print(f"command: {name}: {what}")


def run(words, **more):
    if "stdout" not in more:
        more["stdout"] = subprocess.PIPE
    return subprocess.run(
        [PROGRAM] + words, stdin=subprocess.DEVNULL, stderr=subprocess.PIPE, timeout=SECONDS, **more
    )


def row(name, words, status, out=b"", err=b"", files=None):
    """What is printed and the status; `err` None is any text that isn't empty. `files` is what files hold then."""
    try:
        done = run(words)
    except subprocess.TimeoutExpired:
        tell(name, False, "too slow")
        return
    problems = []
    if done.returncode != status:
        problems.append(f"status {done.returncode}, not {status}")
    if done.stdout != out:
        problems.append(f"printed {done.stdout[:200]!r}, not {out[:200]!r}")
    if (err is None and not done.stderr) or (err is not None and done.stderr != err):
        problems.append(f"told {done.stderr[:200]!r}, not {err!r}")
    for path, want in (files or {}).items():
        have = open(path, "rb").read() if os.path.exists(path) else None
        if have != want:
            problems.append(f"{path} holds {have!r}, not {want!r}")
    tell(name, not problems, "; ".join(problems))


def refused(name, words, line, files=None):
    row(name, words, 1, b"", line + b"\n", files)


def misused(name, words):
    row(name, words, 2, b"", None)


def helped(name, words, part):
    done = run(words)
    good = done.returncode == 0 and not done.stderr and part in done.stdout
    tell(name, good, f"status {done.returncode}, printed {done.stdout[:200]!r}, told {done.stderr[:200]!r}")


def jobs():
    row("no words: the first example", [], 0, SEVEN_TEXT)
    row("binary", ["binary", "one.fbs", "seven.json", "out.bin"], 0, files={"out.bin": SEVEN})
    row("json", ["json", "one.fbs", "seven.bin"], 0, SEVEN_TEXT)
    row("json of a default", ["json", "one.fbs", "default.bin"], 0, b"{}\n")
    row("json with defaults", ["json", "--defaults-json", "one.fbs", "default.bin"], 0, b'{\n  "a": 0\n}\n')
    row("check of a schema", ["check", "one.fbs"], 0, b"ok\n")
    row("check of a buffer", ["check", "one.fbs", "seven.bin"], 0, b"ok\n")
    row("an unknown member", ["binary", "--unknown-json", "one.fbs", "more.json", "more.bin"], 0,
        files={"more.bin": SEVEN})
    row("three megabytes of blanks", ["binary", "one.fbs", "long.json", "long.bin"], 0, files={"long.bin": SEVEN})
    row("the identifier unchecked", ["json", "--raw-binary", "test.fbs", "other.bin"], 0, b"{}\n")
    row("check with the identifier unchecked", ["check", "--raw-binary", "test.fbs", "other.bin"], 0, b"ok\n")
    row("two dashes before paths", ["check", "--", "one.fbs", "seven.bin"], 0, b"ok\n")
    row("a path that begins with a dash", ["check", "--", "-dash.fbs"], 0, b"ok\n")
    row("a buffer whose path begins with a dash", ["json", "--defaults-json", "one.fbs", "--", "-default.bin"], 0,
        b'{\n  "a": 0\n}\n')


def refusals():
    kept = {"kept.bin": b"kept"}
    refused("a cut buffer", ["check", "one.fbs", "cut.bin"], b"54 OutOfBounds at 16")
    refused("json of a cut buffer", ["json", "one.fbs", "cut.bin"], b"54 OutOfBounds at 16")
    refused("an empty buffer", ["check", "one.fbs", "empty"], b"50 Short at 0")
    refused("an empty schema", ["check", "empty"], b"21 BadRoot at 0")
    refused("a schema that is no UTF-8", ["check", "not_utf8.fbs"], b"1 NotUtf8 at 19")
    refused("another identifier", ["check", "test.fbs", "other.bin"], b"52 WrongIdentifier at 4")
    refused("bad JSON", ["binary", "one.fbs", "bad.json", "kept.bin"], b"113 BadJson", kept)
    refused("JSON that is no UTF-8", ["binary", "one.fbs", "not_utf8.json", "kept.bin"], b"113 BadJson", kept)
    refused("an empty JSON text", ["binary", "one.fbs", "empty", "kept.bin"], b"113 BadJson", kept)
    refused(
        "a text for a number", ["binary", "one.fbs", "text.json", "kept.bin"], b"70 WrongShape in type 0 slot 0", kept
    )
    refused("a member that the schema lacks", ["binary", "one.fbs", "more.json", "kept.bin"],
            b"74 UnknownMember in type 0", kept)
    refused(
        "a struct's field that is missing",
        ["binary", "structs.fbs", "structs.json", "kept.bin"],
        b"75 MissingMember in type 0 slot 1",
        kept,
    )
    refused("the schema before the JSON", ["binary", "empty", "bad.json", "kept.bin"], b"21 BadRoot at 0", kept)


def unions():
    row("a union of the new schema", ["binary", "union_new.fbs", "union.json", "union.bin"], 0)
    row("an unknown code is no fault", ["check", "union_old.fbs", "union.bin"], 0, b"ok\n")
    refused("an unknown code has no name", ["json", "union_old.fbs", "union.bin"], b"81 NoMemberName in type 4 slot 1")


def comparisons():
    row("a schema conforms to itself", ["conform", "one.fbs", "one.fbs"], 0, b"conforms\n")
    refused("a field of another union", ["conform", "union_old.fbs", "union_new.fbs"],
            b"96 FieldTypeChanged in type 4 slot 0")
    refused("another default", ["conform", "one.fbs", "two.fbs"], b"97 DefaultChanged in type 0 slot 0")
    refused("an identifier more", ["conform", "one.fbs", "test.fbs"], b"91 IdentifierChanged")
    refused("the old schema is refused first", ["conform", "empty", "not_utf8.fbs"], b"old: 21 BadRoot at 0")
    refused("an empty old schema", ["conform", "empty", "one.fbs"], b"old: 21 BadRoot at 0")
    refused("the new schema is refused", ["conform", "one.fbs", "not_utf8.fbs"], b"new: 1 NotUtf8 at 19")
    refused("a missing new schema", ["conform", "one.fbs", "missing"], b"110 FileRead")


def chains():
    row("a chain of two", ["conform", "--chain", "one.fbs", "one_b.fbs"], 0, b"conforms\n")
    row("a chain of three", ["conform", "--chain", "one.fbs", "one_b.fbs", "one_c.fbs"], 0, b"conforms\n")
    refused("the last step of a chain", ["conform", "--chain", "one.fbs", "one.fbs", "two.fbs"],
            b"one.fbs to two.fbs: 97 DefaultChanged in type 0 slot 0")
    refused("the first step of a chain", ["conform", "--chain", "one_c.fbs", "one_b.fbs", "one_b.fbs"],
            b"one_c.fbs to one_b.fbs: 95 SlotGone in type 0 slot 2")
    refused("all steps of a chain", ["conform", "--chain", "one.fbs", "two.fbs", "one.fbs", "test.fbs"],
            b"one.fbs to two.fbs: 97 DefaultChanged in type 0 slot 0\n"
            b"two.fbs to one.fbs: 97 DefaultChanged in type 0 slot 0\n"
            b"one.fbs to test.fbs: 91 IdentifierChanged")
    row("moved names of a chain, without --names", ["conform", "--chain", "one_b.fbs", "moved.fbs", "one_b.fbs"], 0,
        b"conforms\n")
    refused("names of a chain", ["conform", "--chain", "--names", "one.fbs", "one_b.fbs", "moved.fbs"],
            b"one_b.fbs to moved.fbs: 103 NameMoved in type 0 slot 0")
    refused("a version that is no schema", ["conform", "--chain", "one.fbs", "empty", "two.fbs"],
            b"empty: 21 BadRoot at 0")
    refused("a version that is missing", ["conform", "--chain", "one.fbs", "missing", "two.fbs"],
            b"missing: 110 FileRead")
    refused("the steps after a version that is no schema",
            ["conform", "--chain", "one.fbs", "empty", "one.fbs", "two.fbs"],
            b"empty: 21 BadRoot at 0\none.fbs to two.fbs: 97 DefaultChanged in type 0 slot 0")
    refused("the first version is no schema, nor is the last",
            ["conform", "--chain", "empty", "one.fbs", "one_b.fbs", "not_utf8.fbs"],
            b"empty: 21 BadRoot at 0\nnot_utf8.fbs: 1 NotUtf8 at 19")
    refused("standard input as a version", ["conform", "--chain", "one.fbs", "-", "one.fbs"], b"-: 21 BadRoot at 0")
    refused("a line feed in a version's path", ["conform", "--chain", "one.fbs", "line\nfeed.fbs", "one.fbs"],
            b"one.fbs to line\\u{a}feed.fbs: 97 DefaultChanged in type 0 slot 0\n"
            b"line\\u{a}feed.fbs to one.fbs: 97 DefaultChanged in type 0 slot 0")


def schemas():
    row("one schema of several", ["check", "--schemas", "one.fbs"], 0, b"ok\n")
    row("several schemas", ["check", "--schemas", "one.fbs", "two.fbs", "structs.fbs"], 0, b"ok\n")
    row("the same schema twice", ["check", "one.fbs", "one.fbs", "--schemas"], 0, b"ok\n")
    refused("the first schema of several", ["check", "--schemas", "empty", "one.fbs"], b"empty: 21 BadRoot at 0")
    refused("the last schema of several", ["check", "--schemas", "one.fbs", "two.fbs", "empty"],
            b"empty: 21 BadRoot at 0")
    refused("schemas after one that is refused",
            ["check", "--schemas", "not_utf8.fbs", "one.fbs", "missing", "empty", "two.fbs"],
            b"not_utf8.fbs: 1 NotUtf8 at 19\nmissing: 110 FileRead\nempty: 21 BadRoot at 0")
    refused("standard input as a schema", ["check", "--schemas", "one.fbs", "-"], b"-: 21 BadRoot at 0")
    row("a buffer is no schema", ["check", "--schemas", "one.fbs", "seven.bin"], 1, b"", None)


def shown_alike(name, words, before, alone):
    """A line over several schemas shows a refusal as `alone` does: after `before` where its line comes first."""
    for form in FORMATS:
        several = run([words[0], "--error-format", form, *words[1:]])
        one = run([alone[0], "--error-format", form, *alone[1:]])
        want = (before if form in ("line", "human") else b"") + one.stderr
        good = (several.returncode, several.stdout, several.stderr) == (one.returncode, one.stdout, want)
        tell(f"{name} in {form}", good, f"{several}, not {one}"[:600])


def formats():
    shown_alike("a step", ["conform", "--chain", "one.fbs", "one_b.fbs", "two.fbs"], b"one_b.fbs to two.fbs: ",
                ["conform", "one_b.fbs", "two.fbs"])
    shown_alike("a warning", ["conform", "--chain", "one.fbs", "one_b.fbs", "moved.fbs"], b"",
                ["conform", "one_b.fbs", "moved.fbs"])
    shown_alike("a version", ["conform", "--chain", "one.fbs", "not_utf8.fbs", "one.fbs"], b"not_utf8.fbs: ",
                ["check", "not_utf8.fbs"])
    shown_alike("a schema", ["check", "--schemas", "one.fbs", "not_utf8.fbs"], b"not_utf8.fbs: ",
                ["check", "not_utf8.fbs"])
    done = run(["conform", "--chain", "--error-format", "short", "one.fbs", "one_b.fbs", "two.fbs"])
    found = [(line.partition(b":1:")[0], line.split(b"[")[-1]) for line in done.stderr.splitlines()]
    want = [(b"two.fbs", b"97 DefaultChanged]"), (b"two.fbs", b"95 SlotGone]")]
    tell("each finding of a step", found == want, f"{done}")
    done = run(["conform", "--chain", "--error-format", "short", "one.fbs", "one_b.fbs", "moved.fbs"])
    warned = [line.startswith(b"moved.fbs:1:") and b": warning: " in line for line in done.stderr.splitlines()]
    tell("warnings of a step", (done.returncode, warned) == (0, [True, True]), f"{done}")
    for words in (["check", "--schemas", "one.fbs", "missing"], ["conform", "--chain", "one.fbs", "missing"]):
        done = run([words[0], "--error-format", "short", *words[1:]])
        good = done.returncode == 1 and done.stderr.startswith(b"missing:1:1: error: ")
        tell(f"a missing file of {words[:2]}", good and b"no other file" not in done.stderr, f"{done}")


def compared(name, words, want):
    if want == "conforms":
        row(name, words, 0, b"conforms\n")
    else:
        refused(name, words, want.encode())


def pairs():
    count = 0
    for line in open(os.path.join(ROOT, "tests", "pairs.txt"), encoding="ascii"):
        line = line.rstrip("\n")
        if not line or line.startswith("#"):
            continue
        name, old, new, want, *moved = line.split(" | ")
        for path, text in (("old.fbs", old), ("new.fbs", new)):
            with open(path, "w", encoding="ascii") as file:
                file.write(text.replace("..", "root_type T;"))
        compared(name, ["conform", "old.fbs", "new.fbs"], want)
        compared(f"{name}, with names", ["conform", "--names", "old.fbs", "new.fbs"], *(moved or [want]))
        count += 1
    tell("the pairs of schemas", count >= PAIRS, f"{count} of at least {PAIRS}")


def files():
    refused("a missing schema", ["check", "missing"], b"110 FileRead")
    refused("a missing buffer", ["check", "one.fbs", "missing"], b"110 FileRead")
    refused("a folder", ["check", "folder"], b"110 FileRead")
    refused("a missing JSON text leaves OUT alone", ["binary", "one.fbs", "missing", "kept.bin"], b"110 FileRead",
            {"kept.bin": b"kept"})
    refused("OUT in a missing folder", ["binary", "one.fbs", "seven.json", "missing/out"], b"111 FileWrite")
    refused("OUT is a folder", ["binary", "one.fbs", "seven.json", "folder"], b"111 FileWrite")
    refused("OUT is full", ["binary", "one.fbs", "seven.json", "/dev/full"], b"111 FileWrite")
    same = {"copy.json": FILES["seven.json"]}
    refused("the same path for JSON and OUT", ["binary", "one.fbs", "copy.json", "copy.json"], b"111 FileWrite", same)
    unreadable()
    refused("a file over the limit", ["check", "one.fbs", "over"], b"112 FileTooLong")
    refused("a file of the greatest length", ["check", "one.fbs", "longest"], b"55 ZeroOffset at 0")


def unreadable():
    """A file that its reader may not open. Root may open any, so there another user tries."""
    os.chmod("secret", 0)
    os.chmod(".", 0o755)
    shutil.copy(PROGRAM, "program")
    other = {"user": NOBODY, "group": NOBODY, "extra_groups": []} if os.geteuid() == 0 else {}
    done = subprocess.run(["./program", "check", "secret"], capture_output=True, check=False, timeout=SECONDS, **other)
    got = (done.returncode, done.stdout, done.stderr)
    tell("an unreadable file", got == (1, b"", b"110 FileRead\n"), f"{got}")


def streams():
    with open("/dev/full", "wb") as full:
        done = run(["json", "one.fbs", "seven.bin"], stdout=full)
        tell("a full device", (done.returncode, done.stderr) == (1, b"82 WriteFailed after 0\n"), f"{done}")
        done = run(["check", "one.fbs"], stdout=full)
        tell("a full device for `ok`", done.returncode == 1, f"{done}")
    read, write = os.pipe()
    os.close(read)
    done = run(["json", "one.fbs", "seven.bin"], stdout=write)
    os.close(write)
    tell("a closed pipe", (done.returncode, done.stderr) == (1, b"82 WriteFailed after 0\n"), f"{done}")


def small_stack():
    resource.setrlimit(resource.RLIMIT_STACK, (SMALL_STACK, SMALL_STACK))


def chain(count, field):
    """A schema with so many structs, each in the next, and a field of that type behind each."""
    inner = "".join(f"struct S{i} {{ a:S{i - 1};{field} }} " for i in range(1, count))
    return f"struct S0 {{ a:ubyte; }} {inner}table T {{ s:S{count - 1}; }} root_type T;".encode()


def one_struct(values):
    """A buffer of a table with one struct in its first slot, aligned to 1."""
    return bytes.fromhex("0c000000 0600 0500 0400 0000 08000000") + values


def deep_text(count, values):
    """The text of the chain's value, line by line: each value of `b` is behind a struct."""
    yield b'{\n  "s": {\n'
    for depth in range(2, count + 1):
        yield b"  " * depth + b'"a": {\n'
    yield b"  " * (count + 1) + b'"a": 0\n'
    for depth in range(count, 0, -1):
        indent = b"  " * depth
        behind = b',\n%b"b": %d' % (indent, values[count - depth]) if values and depth > 1 else b""
        yield indent + b"}" + behind + b"\n"
    yield b"}\n"


def nesting():
    """Structs nested deep, on a small stack: the printer's doesn't grow with them."""
    values = bytes(range(1, 251)) * 12
    open("chain.fbs", "wb").write(chain(2500, " b:ubyte;"))
    open("chain.bin", "wb").write(one_struct(bytes([0]) + values[:2499]))
    done = run(["json", "chain.fbs", "chain.bin"], preexec_fn=small_stack)
    want = b"".join(deep_text(2500, values))
    good = (done.returncode, done.stdout) == (0, want)
    tell("2,500 structs, each with a field behind it", good, f"{done.stderr} {done.stdout[:99]}")
    open("chain.fbs", "wb").write(chain(60_000, ""))
    open("chain.bin", "wb").write(one_struct(bytes(1)))
    words = [PROGRAM, "json", "chain.fbs", "chain.bin"]
    pipes = {"stdin": subprocess.DEVNULL, "stdout": subprocess.PIPE, "stderr": subprocess.PIPE}
    with subprocess.Popen(words, preexec_fn=small_stack, **pipes) as child:
        # printing has to end soon after the pipe is closed, and not once the whole text was gone through
        timer = threading.Timer(CUT_SECONDS, child.kill)
        timer.start()
        front = child.stdout.read(FRONT)
        child.stdout.close()
        err = child.stderr.read()
        status = child.wait()
        timer.cancel()
    want, length = [], 0
    for line in deep_text(60_000, b""):
        want.append(line)
        length += len(line)
        if length > FRONT:
            break
    told = (front == b"".join(want)[:FRONT], status, err[:21])
    tell("60,000 structs, cut after a megabyte", told == (True, 1, b"82 WriteFailed after "), f"{told}")


def usage():
    for words in (["--help"], ["-h"], ["help"]):
        helped(f"help by {words}", words, b"Usage: flatc <COMMAND>")
    for job in ("binary", "json", "check", "conform"):
        for words in ([job, "--help"], [job, "-h"], ["help", job]):
            helped(f"help by {words}", words, f"Usage: flatc {job} ".encode())
    helped("the version", ["--version"], f"flatc {version()}\n".encode())
    misused("no such job", ["nothing"])
    misused("a flag that no job has", ["check", "--nothing", "one.fbs"])
    misused("a flag of another job", ["check", "--unknown-json", "one.fbs"])
    misused("too few paths", ["json", "one.fbs"])
    misused("one schema to compare", ["conform", "one.fbs"])
    misused("too many paths", ["json", "one.fbs", "seven.bin", "seven.bin"])
    misused("words that are no UTF-8", [b"check", b"\xff"])
    for line in MISUSED:
        misused(f"the line {line}", line.split())
    for words in (["json", "--pretty", "s", "b"], ["--pretty", "json", "s", "b"]):
        done = run(words)
        good = done.returncode == 2 and b"'--pretty' found\n\nUsage: flatc" in done.stderr and b"tip" not in done.stderr
        tell(f"no tip to pass an option as a value: {words}", good, f"{done}")
    for words, part in ERRORS:
        done = run(words)
        good = (done.returncode, done.stdout) == (2, b"") and done.stderr.startswith(b"error: " + part)
        tell(f"the error of {words}", good, f"{done}")


def examples():
    folder = os.path.join(ROOT, "examples")
    schema = os.path.join(folder, "monster.fbs")
    json = os.path.join(folder, "monster.json")
    # the bytes by the written rules of placement, the text as Google's flatc 2.0.8 prints it with --strict-json
    bytes_wanted = bytes.fromhex(open(os.path.join(ROOT, "tests", "monster.hex"), encoding="ascii").read())
    text_wanted = open(os.path.join(ROOT, "tests", "monster.printed.json"), "rb").read()
    row("the example's buffer", ["binary", schema, json, "monster.bin"], 0, files={"monster.bin": bytes_wanted})
    row("the example's buffer is sound", ["check", schema, "monster.bin"], 0, b"ok\n")
    row("the example's text", ["json", schema, "monster.bin"], 0, text_wanted)
    open("monster.json", "wb").write(text_wanted)
    row("the printed example means the same buffer", ["binary", schema, "monster.json", "again.bin"], 0,
        files={"again.bin": bytes_wanted})
    newer = os.path.join(folder, "monster_v2.fbs")
    row("the example's next version conforms", ["conform", schema, newer], 0, b"conforms\n")
    refused("and not the other way round", ["conform", newer, schema], b"101 EnumChanged in type 1")
    row("the next version reads the old buffer", ["check", newer, "monster.bin"], 0, b"ok\n")
    row("flatc's own buffer is sound", ["check", schema, os.path.join(folder, "monster.bin")], 0, b"ok\n")
    row("flatc's own buffer prints the same", ["json", schema, os.path.join(folder, "monster.bin")], 0, text_wanted)


def shown():
    done = subprocess.run(
        [os.path.join(ROOT, "tests", "example.sh"), PROGRAM], capture_output=True, check=False, timeout=SECONDS
    )
    tell("the example that make run shows", done.returncode == 0, f"{done}")


PARTS = (
    jobs, refusals, unions, comparisons, pairs, chains, schemas, formats, files, streams, nesting, usage, examples,
    shown,
)


def main():
    with tempfile.TemporaryDirectory() as folder:
        os.chdir(folder)
        for name, content in FILES.items():
            open(name, "wb").write(content)
        open("copy.json", "wb").write(FILES["seven.json"])
        open("kept.bin", "wb").write(b"kept")
        open("secret", "wb").write(ONE)
        os.mkdir("folder")
        for name, length in (("over", LONGEST + 1), ("longest", LONGEST)):
            with open(name, "wb") as file:
                file.truncate(length)
        for part in PARTS:
            try:
                part()
            except Exception as problem:
                tell(part.__name__, False, repr(problem))
        os.chdir("/")
    print(f"{passed} passed, {failed} failed")
    return 1 if failed or not passed else 0


if __name__ == "__main__":
    if len(sys.argv) != 2:
        sys.exit(__doc__)
    PROGRAM = os.path.abspath(sys.argv[1])
    sys.exit(main())
