#!/usr/bin/env python3
"""What the built program prints with --explain: each row is a mistake, and the whole of what standard error has then.

usage: tests/explain.py PROGRAM

Each run with --explain is made without it too: the status, what is printed and the line of the fault are the same. The
last line is 'N passed, M failed'.
"""
import gzip
import os
import re
import struct
import sys
import textwrap

from explain_rows import (
    BY_NAME, CHANGES, COLUMNS, FLAGS, FLAG_VALUES, HINTS, HP, IDS, MARK, MONSTER, NAMES, OLD_BUFFERS, PAIRS, SCHEMAS,
    SEVERAL, SEVERAL_SENTENCES, TEXTS, VALUES,
)
from harness import ROOT, Tests, content, program_of, write
from hostile import ASKED_AHEAD, refusing, shim


class Explained(Tests):
    """Tests that make each run with --explain without it too, unless growths of its heap are refused."""

    def run(self, words, **more):
        done = super().run(words, **more)
        if "--explain" in words and "env" not in more:
            alone = super().run([word for word in words if word != "--explain"], **more)
            # a schema that conforms may have warnings, and no line before them
            line = done.stderr.splitlines(keepends=True)[:1] if done.returncode else []
            good = (alone.returncode, alone.stdout, alone.stderr) == (done.returncode, done.stdout, b"".join(line))
            self.tell(f"without --explain: {' '.join(words)}", good, f"{alone!r}"[:500])
        return done


def position(text, offset):
    """The line and column of an offset, the line's text and what of it is before the offset."""
    start = text.rfind(b"\n", 0, offset) + 1
    end = text.find(b"\n", offset)
    line = text[start : end if end >= 0 else len(text)]
    front = text[start:offset]
    if start == 0 and front.startswith(b"\xef\xbb\xbf"):
        line, front = line[3:], front[3:]
    return text.count(b"\n", 0, offset) + 1, len(front.decode()) + 1, line.removesuffix(b"\r"), front


def shown(piece):
    """A piece of a line as it is printed: tabs are four spaces, control characters and bad bytes are escaped."""
    text = piece.decode(errors="surrogateescape").replace("\t", "    ")
    text = re.sub(r"[\ud800-\udfff]", lambda it: f"\\x{ord(it[0]) - 0xdc00:02x}", text)
    return re.sub(r"[\x00-\x1f\x7f\xa0\u200b\ufeff]", lambda it: f"\\u{{{ord(it[0]):x}}}", text)


def excerpt(text, offset):
    _, _, line, front = position(text, offset)
    return [f" | {shown(line)}", f" | {' ' * len(shown(front))}^"]


def marked(text):
    """A text without its mark, and the mark's offset."""
    if isinstance(text, str):
        text = text.encode()
    mark = MARK.encode()
    return text.replace(mark, b"", 1), text.index(mark)


def lines(*all_lines):
    return "".join(f"{line}\n" for line in all_lines).encode()


def place(path, text, offset):
    line, column, _, _ = position(text, offset)
    return f"{path}:{line}:{column}: "


def schemas(tests):
    for name, text, fault, sentence in SCHEMAS:
        text, offset = marked(text)
        write("s.fbs", text)
        want = lines(
            f"{fault} at {offset}", *wrap(place("s.fbs", text, offset) + sentence), *excerpt(text, offset)
        )
        tests.expect(name, ["check", "--explain", "s.fbs"], 1, err=want)


def unsupported(tests):
    text = b"table T {\n  s:float;\n  n:string (key);\n  x:[double];\n}\nroot_type T;"
    write("s.fbs", text)
    want = lines(
        "18 Unsupported at 14",
        *wrap("s.fbs:2:5: floats aren't supported; int, a whole number of the same width, keeps the field's place in "
              "buffers"),
        " |   s:float;",
        " |     ^",
        *wrap("s.fbs:3:13: the attribute 'key' isn't supported: without it the same is stored, but Google's flatc "
              "sorts vectors by keys"),
        *wrap("s.fbs:4:6: floats aren't supported; long, a whole number of the same width, keeps the field's place in "
              "buffers"),
    )
    tests.expect("all that isn't supported", ["check", "--explain", "s.fbs"], 1, err=want)


# Structs that double from 8 bytes to 65,536, and a table of 8,192 fields of 8 bytes.
DOUBLING = "struct S0 { a:ulong; }\n" + "".join(f"struct S{k} {{ a:S{k - 1}; b:S{k - 1}; }}\n" for k in range(1, 14))
WIDE = "table ¦T {\n" + "".join(f"  f{k}:ulong;\n" for k in range(8192)) + "}\nroot_type T;\n"
SIZES = [
    ("a struct of 65,536 bytes", DOUBLING.replace("S13", "¦S13") + "table T { s:S13; }\nroot_type T;\n",
     "30 StructTooBig in type 13", "'S13' takes more than 65535 bytes"),
    ("a table of 65,540 bytes", WIDE, "31 TableTooWide in type 0",
     "'T' is too wide: a table's fields take 65535 bytes together at most, in 32765 slots at most"),
]


def ids(tests):
    for name, text, sentence in IDS:
        text, table = marked(text)
        text, field = marked(text)
        write("s.fbs", text)
        want = lines(f"13 BadIds at {table}", *wrap(place("s.fbs", text, field) + sentence), *excerpt(text, field))
        tests.expect(name, ["check", "--explain", "s.fbs"], 1, err=want)


def sizes(tests):
    for name, text, fault, sentence in SIZES:
        text, offset = marked(text)
        write("s.fbs", text)
        want = lines(fault, place("s.fbs", text, offset) + sentence, *excerpt(text, offset))
        tests.expect(name, ["check", "--explain", "s.fbs"], 1, err=want)


def texts(tests):
    write("s.fbs", MONSTER.encode())
    for name, text, sentence in TEXTS:
        text, offset = marked(text)
        write("v.json", text)
        want = lines("113 BadJson", *wrap(place("v.json", text, offset) + sentence), *excerpt(text, offset))
        tests.expect(name, ["binary", "--explain", "s.fbs", "v.json", "out.bin"], 1, err=want)
    write("v.json", b'{"name":"\xff"}')
    want = lines("113 BadJson", "v.json:1:10: the text isn't UTF-8 from here on", ' | {"name":"\\xff"}', " |          ^")
    tests.expect("JSON that isn't UTF-8", ["binary", "--explain", "s.fbs", "v.json", "out.bin"], 1, err=want)
    write("v.json", b"[" * 200)
    done = tests.run(["binary", "--explain", "s.fbs", "v.json", "out.bin"])
    tests.tell("JSON that is nested too deep", b": objects and arrays are nested deeper than 127\n" in done.stderr)


def values(tests):
    write("s.fbs", MONSTER.encode())
    for name, text, fault, sentence in VALUES:
        text, offset = marked(text)
        write("v.json", text)
        want = lines(fault, *wrap(place("v.json", text, offset) + sentence), *excerpt(text, offset))
        tests.expect(name, ["binary", "--explain", "s.fbs", "v.json", "out.bin"], 1, err=want)
        tests.tell(f"{name}: no OUT", not os.path.exists("out.bin"))


def flags(tests):
    write("s.fbs", FLAGS.encode())
    for name, text, sentence in FLAG_VALUES:
        text = f'{{ "moves": "{text}" }}'.encode()
        write("v.json", text)
        want = lines("73 UnknownName in type 1 slot 0",
                     f"v.json:1:12: moves: no value of enum Moves is called {sentence}", *excerpt(text, 11))
        tests.expect(name, ["binary", "--explain", "s.fbs", "v.json", "out.bin"], 1, err=want)


# What is passed for a schema, and for JSON or a buffer under it; the line, and what is told.
KINDS = [
    ("JSON and a schema in the wrong order", ["binary", "v.json", "s.fbs", "out.bin"], "5 Unexpected at 0",
     "v.json: this looks like JSON: SCHEMA comes first"),
    ("a buffer and a schema in the wrong order", ["json", "b.bin", "s.fbs"], "2 BadByte at 0",
     "b.bin: this looks like a buffer: SCHEMA comes first"),
    ("JSON for the new one of two schemas", ["conform", "s.fbs", "v.json"], "new: 5 Unexpected at 0",
     "v.json: this looks like JSON: conform compares two schemas"),
    ("a buffer for the old one of two schemas", ["conform", "b.bin", "s.fbs"], "old: 2 BadByte at 0",
     "b.bin: this looks like a buffer: conform compares two schemas"),
    ("a buffer for JSON", ["binary", "s.fbs", "b.bin", "out.bin"], "113 BadJson",
     "b.bin: this looks like a buffer: 'flatc json' makes JSON of it"),
    ("a schema for JSON", ["binary", "s.fbs", "s.fbs", "out.bin"], "113 BadJson",
     "s.fbs: this looks like a schema: SCHEMA comes first, then JSON"),
    ("JSON for a buffer", ["json", "s.fbs", "v.json"], "53 Misaligned at 1634607739",
     "v.json: this looks like JSON: 'flatc binary' makes a buffer of it"),
    ("a schema for a buffer", ["check", "s.fbs", "s.fbs"], "54 OutOfBounds at 1818386804",
     "s.fbs: this looks like a schema: SCHEMA comes first, then BIN"),
]


def kinds(tests):
    write("s.fbs", b"table T { name:string (required); } root_type T;")
    write("v.json", b'{"name":"Orc"}')
    write("b.bin", SOUND)
    for name, words, line, told in KINDS:
        tests.expect(name, [words[0], "--explain", *words[1:]], 1, err=lines(line, told))


def changes(tests):
    write("old.fbs", MONSTER.encode())
    for name, was, now, fault, sentences in CHANGES:
        write("new.fbs", MONSTER.replace(was, now).encode())
        want = lines(fault, *[piece for sentence in sentences for piece in wrap(sentence)])
        tests.expect(name, ["conform", "--explain", "old.fbs", "new.fbs"], 1, err=want)
    for name, old, new, fault, sentences in PAIRS:
        write("old.fbs", old.encode())
        write("new.fbs", new.encode())
        want = lines(fault, *[piece for sentence in sentences for piece in wrap(sentence)])
        tests.expect(name, ["conform", "--explain", "old.fbs", "new.fbs"], 1, err=want)
    write("old.fbs", MONSTER.encode())
    new = MONSTER
    for was, now in SEVERAL:
        new = new.replace(was, now)
    write("new.fbs", new.encode())
    tests.expect("several breaches", ["conform", "--explain", "old.fbs", "new.fbs"], 1,
                 err=lines("91 IdentifierChanged", *SEVERAL_SENTENCES))
    deprecated = HP.replace("mp:int;", "mp:int (deprecated);")
    again = HP.replace("  mp:int;\n", "  was_mp:int (deprecated);\n  mp:int;\n")
    taken = (
        "U.mp was field 1 (old.fbs:3), is field 2 (new.fbs:4): "
        "the name of a deprecated field now belongs to another one"
    )
    rows = [*NAMES, ("the name of a field that was deprecated", deprecated, deprecated, again,
                     "103 NameMoved in type 0 slot 1", [taken])]
    for name, old, was, now, fault, sentences in rows:
        write("old.fbs", old.encode())
        write("new.fbs", old.replace(was, now).encode())
        words = ["conform", "--names", "--explain", "old.fbs", "new.fbs"]
        want = lines(*([fault] if fault else []), *[piece for sentence in sentences for piece in wrap(sentence)])
        tests.expect(f"names: {name}", words, 1 if fault else 0, b"" if fault else b"conforms\n", want)
    write("old.fbs", MONSTER.encode())
    moved = MONSTER.replace("  big:ulong;\n", "  more:ulong;\n").replace("  ok:bool;\n", "  ok:bool;\n  big:ulong;\n")
    write("new.fbs", moved.encode())
    want = lines(
        *wrap(
            "warning: Monster.big was field 8 (old.fbs:14), is field 10 (new.fbs:16): "
            f"{OLD_BUFFERS}big as more, {BY_NAME}"
        )
    )
    tests.expect("a name that stands for another field", ["conform", "--explain", "old.fbs", "new.fbs"], 0,
                 b"conforms\n", want)
    write("new.fbs", MONSTER.replace("hp:ubyte = 100", "hp:ubyte = 300").encode())
    done = tests.run(["conform", "--explain", "old.fbs", "new.fbs"])
    tests.tell("a new text that is refused",
    done.stderr.startswith(b"new: 12 BadDefault at ") and b"\nnew.fbs:8:14: " in
               done.stderr, f"{done.stderr!r}")
    done = tests.run(["conform", "--explain", "new.fbs", "old.fbs"])
    tests.tell("an old text that is refused", done.stderr.startswith(b"old: 12 BadDefault at ") and b"\nnew.fbs:8:14: "
               in done.stderr, f"{done.stderr!r}")


def row(bytes_, start):
    """A row of a dump."""
    part = bytes_[start : start + 16]
    cells = "".join(f" {byte:02x}" for byte in part)
    characters = "".join(chr(byte) if 32 <= byte < 127 else "." for byte in part)
    return f" | {start:10} {cells:<48}  {characters}"


def dump(bytes_, offset):
    offset = min(offset, len(bytes_))
    own = offset - offset % 16
    rows = [row(bytes_, own - 16)] if own else []
    rows += [row(bytes_, own), " | " + " " * (12 + 3 * (offset % 16)) + "^^"]
    return rows + ([row(bytes_, 16)] if not own and len(bytes_) > 16 else [])


# Files of other kinds that are passed for a buffer, and what they look like.
LOOKS = [
    ("a gzip file", gzip.compress(b"x"), "this looks like a gzip file: decompress it first, as with gzip -d"),
    ("a zstd file", bytes.fromhex("28b52ffd 0400 0900 0078"),
     "this looks like a zstd file: decompress it first, as with zstd -d"),
    ("an image", bytes.fromhex("89504e470d0a1a0a 0000000d"), "this looks like a PNG image, and not like a buffer"),
    ("a program", bytes.fromhex("7f454c46 02010100 00000000"),
     "this looks like a program or a library (ELF), and not like a buffer"),
    ("a buffer in base64", b"DAAAAAAABgAIAAQABgAAAAcAAAA=",
     "this looks like base64: decode it first, as with base64 -d"),
    ("a buffer in hexadecimal digits", b"0c00000000000600 0800040006000000 07000000",
     "this looks like hexadecimal digits: decode them first, as with xxd -r -p"),
]


def looks(tests):
    write("s.fbs", b"table T { name:string (required); } root_type T;")
    for name, bytes_, sentence in LOOKS:
        write("b.bin", bytes_)
        root = int.from_bytes(bytes_[:4], "little")
        fault = "Misaligned" if root % 4 else "OutOfBounds"
        want = lines(f"{53 if root % 4 else 54} {fault} at {root}", f"b.bin: {sentence}")
        tests.expect(name, ["check", "--explain", "s.fbs", "b.bin"], 1, err=want)
    # a text of few letters may be anything
    write("b.bin", b"DAAAAAAABgAI")
    done = tests.run(["check", "--explain", "s.fbs", "b.bin"])
    tests.tell("few letters", b"looks like" not in done.stderr, f"{done.stderr!r}")


# The table { name: "Orc" } under `table T { name:string (required); } root_type T;`, and what is done to it.
SOUND = bytes.fromhex("0c000000 0000 0600 0800 0400 06000000 04000000 03000000 4f726300")
BUFFERS = [
    ("an empty buffer", lambda b: b"", "50 Short at 0", "the buffer's length is 0: too short for the root's offset and "
     "the file identifier", 0),
    ("a root that isn't aligned", lambda b: struct.pack("<I", 13) + b[4:], "53 Misaligned at 13",
     "the root: bytes 0 to 3 say that it is at 13, which isn't a multiple of 4", 0),
    ("a root past the end", lambda b: struct.pack("<I", 64) + b[4:], "54 OutOfBounds at 64",
     "the root: bytes 0 to 3 say that it is at 64, and the buffer has 28 bytes", 0),
    ("a root past the end that isn't aligned", lambda b: struct.pack("<I", 255) + b[4:], "53 Misaligned at 255",
     "the root: bytes 0 to 3 say that it is at 255, and the buffer has 28 bytes", 0),
    ("a string past the end", lambda b: b[:20] + struct.pack("<I", 9) + b[24:], "54 OutOfBounds at 20",
     "name: what is stored at 20 ends past the buffer, which ends at 28", 20),
    ("a string far past the end", lambda b: b[:16] + struct.pack("<I", 2147483727) + b[20:],
     "53 Misaligned at 2147483743",
     "name: bytes 16 to 19 say that it is at 2147483743, and the buffer has 28 bytes", 16),
    ("a string past the end that is aligned", lambda b: b[:16] + struct.pack("<I", 16) + b[20:], "54 OutOfBounds at 32",
     "name: bytes 16 to 19 say that it is at 32, and the buffer has 28 bytes", 16),
    ("a field past the end", lambda b: b[:10] + struct.pack("<H", 4097) + b[12:], "53 Misaligned at 4109",
     "name: what is stored at 4109 would be 4081 bytes past the buffer, which ends at 28", 28),
    ("a root that is 0", lambda b: bytes(4) + b[4:], "55 ZeroOffset at 0",
     "the root: the offset at 0 is 0: it must lead on to a table, string or vector", 0),
    ("a vtable before the buffer", lambda b: b[:12] + struct.pack("<i", 64) + b[16:], "56 BadVtable at 12",
     "the root: the vtable of the table at 12 would be before the buffer", 12),
    ("a vtable of an odd size", lambda b: b[:6] + b"\x05\x00" + b[8:], "56 BadVtable at 12",
     "the root: the vtable of the table at 12 would be at 6 and have a size of 5, "
     "where an even number from 4 on is right",
     12),
    ("a required field that is absent", lambda b: b[:10] + b"\x00\x00" + b[12:], "57 MissingRequired at 12 slot 0",
     "the root: the table at 12 has nothing in slot 0, which is required", 12),
    ("a string without its end", lambda b: b[:27] + b"!", "58 NoTerminator at 27",
     "name: the byte at 27 is 33, where a string's final 0 must be", 27),
    ("a string that isn't UTF-8", lambda b: b[:25] + b"\xff" + b[26:], "59 BadUtf8 at 25",
     "name: the byte at 25 is 255: the string isn't UTF-8 from here on", 25),
]


def buffers(tests):
    write("s.fbs", b"table T { name:string (required); } root_type T;")
    write("b.bin", SOUND)
    tests.expect("a sound buffer", ["check", "--explain", "s.fbs", "b.bin"], 0, b"ok\n")
    for name, damage, fault, sentence, offset in BUFFERS:
        bytes_ = damage(SOUND)
        write("b.bin", bytes_)
        wrapped = wrap(f"b.bin: {sentence}")
        want = lines(fault, *wrapped, *dump(bytes_, offset))
        tests.expect(name, ["check", "--explain", "s.fbs", "b.bin"], 1, err=want)
        tests.expect(f"{name}, printed", ["json", "--explain", "s.fbs", "b.bin"], 1, err=want)
    write("s.fbs", b'table T { name:string (required); } root_type T; file_identifier "ORCS";')
    write("b.bin", SOUND)
    want = lines(
        "52 WrongIdentifier at 4",
        *wrap(
            "b.bin: the file identifier is '\\u{0}\\u{0}\\u{6}\\u{0}', the schema's is 'ORCS' "
            "(--raw-binary skips this check)"
        ),
        *dump(SOUND, 4),
    )
    tests.expect("another identifier", ["check", "--explain", "s.fbs", "b.bin"], 1, err=want)
    # the root's offset is the length of what follows, and the identifier shows that no size is before it
    count = struct.pack("<I", 24) + b"ORCS" + bytes(16) + struct.pack("<i", 1000)
    write("b.bin", count)
    want = lines(
        "56 BadVtable at 24",
        "b.bin: the root: the vtable of the table at 24 would be before the buffer",
        *dump(count, 24),
    )
    tests.expect("a root's offset that might be a size", ["check", "--explain", "s.fbs", "b.bin"], 1, err=want)
    write("s.fbs", b"table T { name:string (required); } root_type T;")
    want = lines(
        "56 BadVtable at 24",
        "b.bin: the root: the vtable of the table at 24 would be before the buffer",
        *dump(count, 24),
        "the first four bytes are the length of what follows: a size-prefixed buffer? add --size-prefixed",
    )
    tests.expect("a size where no identifier is known", ["check", "--explain", "s.fbs", "b.bin"], 1, err=want)
    write("s.fbs", b"table T { names:[string]; } root_type T;")
    # the second of two elements, at 28, leads to 128
    far = SOUND[:20] + struct.pack("<III", 2, 8, 100) + struct.pack("<I", 3) + b"Orc\0"
    write("b.bin", far)
    want = lines(
        "54 OutOfBounds at 128",
        "b.bin: names[1]: bytes 28 to 31 say that it is at 128, and the buffer has 40 bytes",
        *dump(far, 28),
    )
    tests.expect("an element past the end", ["check", "--explain", "s.fbs", "b.bin"], 1, err=want)
    prefixed = struct.pack("<I", 28) + SOUND[:16] + struct.pack("<I", 16) + SOUND[20:]
    write("s.fbs", b"table T { name:string (required); } root_type T;")
    write("b.bin", prefixed)
    want = lines(
        "54 OutOfBounds at 36",
        "b.bin: name: bytes 20 to 23 say that it is at 36, and the buffer has 32 bytes",
        *dump(prefixed, 20),
    )
    tests.expect("a string past the end after a size", ["check", "--explain", "--size-prefixed", "s.fbs", "b.bin"], 1,
                 err=want)
    write("s.fbs", b"table A {} union U { A } table T { u:U; } root_type T;")
    half = struct.pack("<I", 12) + bytes.fromhex("0600 0800 0700 0000 08000000 000000 01")
    write("b.bin", half)
    want = lines(
        "60 UnionMismatch at 19",
        "b.bin: u_type: the byte at 19 is 1: the union's type says that it has a value, and it has none",
        *dump(half, 19),
    )
    tests.expect("a union's type without its value", ["check", "--explain", "s.fbs", "b.bin"], 1, err=want)


def chain(count):
    """So many tables in one another, each in the next one's only field."""
    head = struct.pack("<I", 16) + bytes.fromhex("0600 0800 0400 0400 0400 0000")
    tables = b"".join(struct.pack("<iI", 12 + 8 * k, 4) for k in range(count - 1))
    return head + tables + struct.pack("<i", 6 + 8 * (count - 1))


def limits(tests):
    write("s.fbs", b"table N { n:N; } root_type N;")
    write("b.bin", chain(64))
    tests.expect("a buffer of 64 levels", ["check", "--explain", "s.fbs", "b.bin"], 0, b"ok\n")
    write("b.bin", chain(65))
    path = ".".join(["n"] * 64)
    want = lines(
        "62 TooDeep at 528",
        *wrap(f"b.bin: {path}: the table at 528 is nested deeper than 64 levels"),
        *dump(chain(65), 528),
    )
    tests.expect("a buffer of 65 levels", ["check", "--explain", "s.fbs", "b.bin"], 1, err=want)
    text = b'{"n":' * 64 + b"{}" + b"}" * 64
    write("v.json", text)
    want = lines(
        "78 TooDeep in type 0 slot 0",
        *wrap(place("v.json", text, 320) + f"{path}: tables are nested deeper than 64 levels"),
        " | ..." + (b'{"n":' * 12).decode() + (text[320 : 320 + 50]).decode() + "...",
        " | " + " " * 63 + "^",
    )
    tests.expect("JSON of 65 levels", ["binary", "--explain", "s.fbs", "v.json", "out.bin"], 1, err=want)


def shared_rows():
    """10,000 times the same table in a vector, which has a vector of 10,000 bytes: 100 million cells in 50 kB."""
    count = 10_000
    head = struct.pack("<I", 12) + bytes.fromhex("0000 0600 0800 0400")
    root = struct.pack("<iI", 6, 4)
    rows = 20
    table = rows + 4 + 4 * count + 8
    offsets = b"".join(struct.pack("<I", table - (rows + 4 + 4 * k)) for k in range(count))
    vtable = bytes.fromhex("0000 0600 0800 0400")
    return (head + root + struct.pack("<I", count) + offsets + vtable + struct.pack("<iI", 6, 4)
            + struct.pack("<I", count) + bytes(count))


def cells(tests):
    write("s.fbs", b"table V { b:[ubyte]; } table T { v:[V]; } root_type T;")
    write("b.bin", shared_rows())
    # The root and its vector take 1 + 10,001 of the cells, an element's table and vector 1 + 10,001 too: 9,997 elements
    # leave 4, of which the next one's table takes 1, and its vector would take 10,001.
    done = tests.run(["check", "--explain", "s.fbs", "b.bin"])
    at = 20 + 4 + 4 * 10_000 + 8 + 8
    want = lines(
        f"63 TooManyCells at {at}",
        *wrap(f"b.bin: v[9997].b: at {at} the buffer has more than 100000000 tables, strings, vectors, elements and "
              "bytes of strings"),
        *dump(shared_rows(), at),
    )
    tests.tell("a buffer of more than 100 million cells", done.stderr == want, f"{done.stderr!r}, not {want!r}")
    write("s.fbs", b"table T { name:string; } root_type T;")
    write("v.json", b'{"name":"' + b"x" * 99_999_999 + b'"}')
    done = tests.run(["binary", "--explain", "s.fbs", "v.json", "out.bin"])
    rows = done.stderr.decode().splitlines()
    want = ["79 TooManyCells in type 0 slot 0",
    "v.json:1:9: name: more than 100000000 tables, strings, vectors, elements "
            "and bytes of strings"]
    tests.tell("JSON of more than 100 million cells", rows[:2] == want and rows[2].startswith(' | {"name":"xxx')
               and rows[2].endswith("...") and rows[3] == " | " + " " * 8 + "^" and len(rows) == 4, f"{rows!r}"[:500])


def unnamed(tests):
    write("s.fbs", b"table A {} table B {} union U { A, B } table T { u:U; } root_type T;")
    write("b.bin", bytes.fromhex("0c000000 08000c00 07000800 08000000 00000003 08000000 04000400 04000000"))
    want = lines(
        "81 NoMemberName in type 3 slot 1",
        "b.bin: u: the union's code 3 is one that the schema doesn't have; U has 'A' and 'B'",
    )
    tests.expect("a union's code without a member", ["json", "--explain", "s.fbs", "b.bin"], 1, err=want)
    rest = "table A { m:M; } table B {} table M { u:U; n:int; } table T { ms:[M]; } root_type T;"
    write("s.fbs", f"union U {{ A, B }} {rest}".encode())
    write("new.fbs", f"union U {{ A, B, C }} {rest} table C {{}}".encode())
    known = '{"u_type":"B","u":{}}'
    inner = '{"u_type":"A","u":{"m":{"u_type":"C","u":{}}}}'
    write("v.json", f'{{"ms":[{known},{inner},{{"u_type":"C","u":{{}}}}]}}'.encode())
    tests.expect("a member that is new", ["binary", "new.fbs", "v.json", "b.bin"], 0)
    want = lines(
        "81 NoMemberName in type 3 slot 1",
        "b.bin: ms[1].u.m.u: the union's code 3 is one that the schema doesn't have; U has 'A' and 'B'",
    )
    tests.expect("the first code without a member", ["json", "--explain", "s.fbs", "b.bin"], 1, err=want)


def wrap(line):
    """A line that goes on in further ones, set in by four, where it is wider than 120 columns."""
    return textwrap.wrap(line, COLUMNS, subsequent_indent="    ", break_on_hyphens=False)


def files(tests):
    write("s.fbs", MONSTER.encode())
    write("v.json", b'{"name":"Orc"}')
    binary = ["binary", "--explain"]
    tests.expect("a file that isn't there", [*binary, "s.fbs", "no.json", "o"], 1,
                 err=lines("110 FileRead", "no.json: No such file or directory (os error 2)"))
    tests.expect("a schema that isn't there", ["check", "--explain", "no.fbs"], 1,
                 err=lines("110 FileRead", "no.fbs: No such file or directory (os error 2); no other file was read"))
    tests.expect("a schema of three paths that isn't there", [*binary, "no.fbs", "v.json", "o"], 1,
                 err=lines("110 FileRead", "no.fbs: No such file or directory (os error 2); no other file was read"))
    os.mkdir("folder")
    tests.expect("a folder", ["check", "--explain", "folder"], 1,
                 err=lines("110 FileRead", "folder: Is a directory (os error 21); no other file was read"))
    tests.expect("OUT in a folder that isn't there", [*binary, "s.fbs", "v.json", "no/o"], 1,
                 err=lines("111 FileWrite",
                           "no/o: no file can be made in 'no': No such file or directory (os error 2)"))
    tests.expect("OUT in a folder of a long name", [*binary, "s.fbs", "v.json", "n" * 40 + "/o"], 1,
                 err=lines("111 FileWrite", "n" * 40 + "/o: No such file or directory (os error 2)"))
    tests.expect("OUT is an input", [*binary, "s.fbs", "v.json", "v.json"], 1,
                 err=lines("111 FileWrite", "v.json: it is one of the inputs, which are never written over"))
    for old in ("old.json", "old.fbs"):
        write(old, b"old")
        tests.expect(f"OUT is {old}", [*binary, "s.fbs", "v.json", old], 1, holds={old: b"old"},
                     err=lines("111 FileWrite",
                               f"{old}: it is there, and a file named .json or .fbs is never written over"))
    tests.expect("OUT is full", [*binary, "s.fbs", "v.json", "/dev/full"], 1,
                 err=lines("111 FileWrite", "/dev/full: No space left on device (os error 28)"))
    with open("long.json", "wb") as file:
        file.truncate(2**31)
    tests.expect("a file of more than 2 GB", [*binary, "s.fbs", "long.json", "o"], 1,
                 err=lines("112 FileTooLong", "long.json: it is longer than 2147483647 bytes"))
    os.remove("long.json")
    tests.expect("a sound buffer of it", ["binary", "s.fbs", "v.json", "b.bin"], 0)
    with open("/dev/full", "wb") as full:
        tests.expect("standard output is full", ["json", "--explain", "s.fbs", "b.bin"], 1, stdout=full, out=None,
                     err=lines("82 WriteFailed after 0", "standard output took no more after 0 bytes: No space left on "
                               "device (os error 28)"))


# What is said where memory ran out; the numbers that a JSON text made a buffer can end with.
MEMORY = {
    7: "the schema was read",
    23: "the declarations were checked",
    32: "sizes were worked out",
    41: "the buffer was built",
    80: "the JSON text was converted",
    114: "a file or a JSON text was read, or names were compared",
}

# The line of each without an explanation.
ALONE = {f"{number} Memory\n".encode() for number in MEMORY}


def told_of_memory(err):
    """The number of a line that memory ran out, if it is explained: 114 may stand alone, before there is a job."""
    number, _, rest = err.decode().partition(" ")
    explained = f"Memory\nmemory ran out while {MEMORY[int(number)]}\n" if number in map(str, MEMORY) else None
    return number if rest == explained or (number, rest) == ("114", "Memory\n") else None


def each_growth(tests, words, library):
    """What a run tells with each growth of its heap refused, one alone and all from it on."""
    for n in range(1, 5000):
        alone = tests.run(words, env=refusing(library, f"{n}", "count")).stderr
        if content("count").split()[1] == b"0":
            return
        yield n, alone, tests.run(words, env=refusing(library, f"{n}+", "count")).stderr


def memory(tests):
    """Each growth of the heap refused. Where all later ones are too, the fault's line has no explanation after it."""
    library = shim()
    write("s.fbs", MONSTER.encode())
    write("v.json", b'{"name":"Orc","weapons":[{"damage":3}]}')
    met, ahead = set(), 0
    for n, alone, later in each_growth(tests, ["binary", "--explain", "s.fbs", "v.json", "out.bin"], library):
        ahead += not alone
        number = told_of_memory(alone)
        met.add(number)
        tests.tell(f"growth {n} refused", number or not alone, f"{alone!r}")
        tests.tell(f"growths from {n} on refused", later in ALONE, f"{later!r}")
    tests.tell("growths that are only asked for ahead", ahead == ASKED_AHEAD, f"{ahead}")
    tests.tell("each fault of memory was met", met - {None} == {str(it) for it in MEMORY}, f"{met}")
    write("v.json", b'{"name":"Orc","weapons":[{"damage":70000}]}')
    words = ["binary", "--explain", "s.fbs", "v.json", "out.bin"]
    whole = tests.run(words).stderr
    line = whole[: whole.index(b"\n") + 1]
    # The line itself takes no memory, but its explanation does.
    good = (whole, line)
    alone_count = 0
    for n, alone, _ in each_growth(tests, words, library):
        alone_count += alone == line
        tests.tell(f"growth {n} of a refusal refused", alone in good or told_of_memory(alone), f"{alone!r}")
    tests.tell("a line alone where its explanation has no memory", line.startswith(b"72 ") and alone_count > 50,
               f"{alone_count}")


def cuts(tests):
    """Lines are at most 120 columns wide, whatever the text."""
    fields = " ".join(f"field_{k}:int;" for k in range(50_000))
    write("s.fbs", f"table T {{ {fields} last:Missing; {fields} }} root_type T;".encode())
    done = tests.run(["check", "--explain", "s.fbs"])
    rows = done.stderr.decode().splitlines()
    tests.tell("a line of a megabyte", len(rows) == 4 and all(len(it) <= COLUMNS for it in rows), f"{rows!r}"[:300])
    caret = rows[3].index("^") if len(rows) == 4 else -1
    tests.tell("the caret in a long line", rows[2][caret:].startswith("Missing;"), f"{rows[2:]!r}")
    tests.tell("the dots of a long line", rows[2].startswith(" | ...") and rows[2].endswith("..."), f"{rows[2:]!r}")
    write("s.fbs", b"table T { a:" + b"x" * 5000 + b"; } root_type T;")
    done = tests.run(["check", "--explain", "s.fbs"])
    tests.tell("a long name", all(len(it) <= COLUMNS for it in done.stderr.decode().splitlines()))
    tests.tell("a long name is cut", ("'" + "x" * 60 + "...'").encode() in done.stderr, f"{done.stderr!r}"[:300])
    hostile = bytes(range(1, 256)).replace(b"\n", b"")
    write("s.fbs", b"table T { a:" + hostile + b"; } root_type T;")
    done = tests.run(["check", "--explain", "s.fbs"])
    plain = done.stderr.replace(b"\n", b"")
    tests.tell("no control character is printed", all(byte >= 32 and byte != 127 for byte in plain))


def hints(tests):
    """What to write in place of an option of Google's flatc."""
    for words, hint in HINTS:
        done = tests.run(words)
        good = done.returncode == 2 and done.stderr.startswith(b"error: ") and not done.stdout
        good = good and done.stderr.endswith(f"\n\nhint: {hint}\n".encode())
        tests.tell(f"a hint for {' '.join(words)}", good, f"{done.stderr!r}")
    done = tests.run(["--what"])
    tests.tell("no hint for an unknown option", done.returncode == 2 and b"hint" not in done.stderr, f"{done.stderr!r}")


def numbers(tests):
    """`flatc explain` of a number or a name prints what docs/FAULTS.md has."""
    with open(f"{ROOT}/docs/FAULTS.md", encoding="utf-8") as it:
        pages = re.split(r"^### ", re.sub(r"^## .*$", "", it.read(), flags=re.M), flags=re.M)[1:]
    seen = set()
    for page in pages:
        head, _, body = page.partition("\n")
        number = int(head.split()[0])
        seen.add(number)
        tests.expect(f"explain {number}", ["explain", str(number)], 0, f"{head}\n{body.strip()}\n".encode())
    want = {*range(1, 8), *range(10, 24), *range(30, 33), 40, 41, *range(50, 61), *range(62, 65), *range(70, 83), 84}
    want |= {*range(90, 104), *range(110, 115)}
    want.discard(83)
    tests.tell("each number has a page", seen == want, f"{seen ^ want}")
    titles = [[it.strip() for it in page.split("\n", 3)] for page in pages]
    listed = sorted((f"{it[0]}: {it[2]}" for it in titles), key=lambda it: int(it.split()[0]))
    tests.expect("the list of all numbers", ["explain"], 0, lines(*listed))
    by_name = {}
    for page in pages:
        head, _, body = page.partition("\n")
        by_name.setdefault(head.split()[1].strip(), []).append(f"{head}\n{body.strip()}\n")
    tests.tell("some names have several numbers", max(map(len, by_name.values())) > 1)
    for name, texts in by_name.items():
        for word in (name, name.lower(), name.upper()):
            tests.expect(f"explain {word}", ["explain", word], 0, "\n".join(texts).encode())
    for number in sorted(set(range(256)) - want) + ["256", "-1", "x", "Too", "TooDeeply", ""]:
        done = tests.run(["explain", "--", str(number)])
        tests.tell(f"no page for {number}",
        done.returncode == 2 and done.stderr.startswith(b"error: ") and not done.stdout,
                   f"{done!r}")


if __name__ == "__main__":
    parts = [schemas, ids, sizes, unsupported, texts, values, flags, kinds, changes, looks, buffers, limits, cells,
             unnamed, files, memory, cuts, hints, numbers]
    sys.exit(Explained("explain", program_of(sys.argv, __doc__)).main(parts))
