#!/usr/bin/env python3
"""What the built program prints with inspect: each row is a buffer and what each of its ranges is, both written by hand
from the FlatBuffers documentation ("FlatBuffer Internals").

usage: tests/inspect.py PROGRAM

Of thousands of damaged buffers each byte is in the range of some line, no part is listed twice under one type, each
line is plain and has 120 columns at most, and status and fault are those of check. The last line is 'N passed, M
failed'.
"""
import os
import random
import re
import struct
import subprocess
import sys
from concurrent.futures import ThreadPoolExecutor

from harness import Tests, program_of, write

DAMAGED = 10_000
# what README says that a table, string or vector takes in the list
PART_BYTES = 400
SHOWN = 8


def u8(*numbers):
    return bytes(numbers)


def u16(*numbers):
    return struct.pack(f"<{len(numbers)}H", *numbers)


def u32(*numbers):
    return struct.pack(f"<{len(numbers)}I", *numbers)


def i32(*numbers):
    return struct.pack(f"<{len(numbers)}i", *numbers)


def text(content):
    """A string: its length, its bytes and a zero."""
    return u32(len(content)) + content + b"\0"


def line(data, start, end, words):
    """A line of a listing: the range, up to eight bytes of it, and what it is."""
    columns = len(str(len(data)))
    shown = " ".join(f"{byte:02x}" for byte in data[start : min(end, start + SHOWN)])
    more = ".." if end - start > SHOWN else "  "
    return f"{start:>{columns}}..{end:<{columns}}  {shown:<{3 * SHOWN}}{more} {words}"


def listing(data, rows):
    return "".join(line(data, *row) + "\n" for row in rows).encode()


def vtable(name, at, size, table_size, *slots, shared="", overlaps=""):
    """The lines of a vtable, of which each slot is a name and where its field is."""
    rows = [
        (at, at + size, f"vtable of {name}{shared}{overlaps}"),
        (at, at + 2, f"  size of the vtable: {size}"),
        (at + 2, at + 4, f"  size of the table: {table_size}"),
    ]
    for number, (slot, offset) in enumerate(slots):
        where = f"at {offset}" if offset else "absent"
        start = at + 4 + 2 * number
        rows.append((start, start + 2, f"  slot {number}, {slot}: {where}"))
    return rows


SEVEN = u32(12) + u16(0, 6, 8, 4) + i32(6, 7)
SEVEN_ROWS = [
    (0, 4, "root: T at 12"),
    (4, 6, "padding"),
    *vtable("T", 6, 6, 8, ("a", 4)),
    (12, 16, "root: table T, vtable at 6"),
    (16, 20, "a: int = 7"),
]

# A table of two fields of 4 bytes each, up to the first.
TWO_FIELDS = u32(12) + u16(8, 12, 4, 8) + i32(8)


def two_fields(first, second):
    """The lines of what is before the fields, which have these names."""
    return [
        (0, 4, "root: T at 12"),
        *vtable("T", 4, 8, 12, (first, 4), (second, 8)),
        (12, 16, "root: table T, vtable at 4"),
    ]


# A struct of 12 bytes, in which another of 4 bytes begins at 4.
STRUCTS = (
    "struct In { a:short; b:ubyte; } struct Out { x:int; in:In; y:ushort; } table T { s:Out; v:[In]; } root_type T;"
)

ROWS = [
    ("a number", "table T { a:int; } root_type T;", SEVEN, SEVEN_ROWS),
    (
        "a table without a field",
        "table T { a:int; } root_type T;",
        u32(8) + u16(4, 4) + i32(4),
        [(0, 4, "root: T at 8"), *vtable("T", 4, 4, 4), (8, 12, "root: table T, vtable at 4")],
    ),
    (
        "an identifier, a string and numbers of each size",
        'table T { s:string; a:bool; b:byte; c:ushort; d:long; } root_type T; file_identifier "ABCD";',
        u32(24) + b"ABCD" + u16(14, 24, 4, 8, 9, 10, 16, 0)
        + i32(16) + u32(20) + u8(1, 0xFE) + u16(65535) + u32(0) + struct.pack("<q", -5) + text(b"hi") + u8(0),
        [
            (0, 4, "root: T at 24"),
            (4, 8, "file identifier 'ABCD'"),
            *vtable("T", 8, 14, 24, ("s", 4), ("a", 8), ("b", 9), ("c", 10), ("d", 16)),
            (22, 24, "padding"),
            (24, 28, "root: table T, vtable at 8"),
            (28, 32, "s: string at 48"),
            (32, 33, "a: bool = true"),
            (33, 34, "b: byte = -2"),
            (34, 36, "c: ushort = 65535"),
            (36, 40, "padding"),
            (40, 48, "d: long = -5"),
            (48, 52, "s: string, 2 bytes"),
            (52, 55, 's: string = "hi"'),
            (55, 56, "padding"),
        ],
    ),
    (
        "structs in structs, and a vector of structs",
        STRUCTS,
        # T: s at 4 (12 bytes), v at 16; In has a at 0 and b at 2, a byte of padding behind it
        u32(12) + u16(8, 20, 4, 16)
        + i32(8) + i32(-1) + u16(2) + u8(3, 0) + u16(4, 0) + u32(4)
        + u32(2) + u16(5) + u8(6, 0) + u16(7) + u8(8, 0),
        [
            (0, 4, "root: T at 12"),
            *vtable("T", 4, 8, 20, ("s", 4), ("v", 16)),
            (12, 16, "root: table T, vtable at 4"),
            (16, 28, "s: Out"),
            (16, 20, "  s.x: int = -1"),
            (20, 22, "  s.in.a: short = 2"),
            (22, 23, "  s.in.b: ubyte = 3"),
            (24, 26, "  s.y: ushort = 4"),
            (28, 32, "v: [In] at 32"),
            (32, 36, "v: [In], 2 elements"),
            (36, 44, "v: [In]"),
            (36, 38, "  v[0].a: short = 5"),
            (38, 39, "  v[0].b: ubyte = 6"),
            (40, 42, "  v[1].a: short = 7"),
            (42, 43, "  v[1].b: ubyte = 8"),
        ],
    ),
    (
        "a union's member, and codes",
        "table A { n:ubyte; } table B { s:string; } union U { A, B } table T { u:U; w:U; x:U; } root_type T;",
        # w_type is 0, so w is absent; x has a code that no member has
        u32(24) + u16(16, 20, 4, 8, 5, 0, 6, 12) + i32(0)
        + i32(20) + u8(1, 0, 9, 0) + u32(20) + u32(0) + u32(0)
        + u16(6, 8, 4, 0) + i32(8) + u8(77, 0, 0, 0),
        [
            (0, 4, "root: T at 24"),
            *vtable("T", 4, 16, 20, ("u_type", 4), ("u", 8), ("w_type", 5), ("w", 0), ("x_type", 6), ("x", 12)),
            (20, 24, "nothing refers to these bytes"),
            (24, 28, "root: table T, vtable at 4"),
            (28, 29, 'u_type: type of union U = "A"'),
            (29, 30, 'w_type: type of union U = "NONE"'),
            (30, 31, "x_type: type of union U = 9, which no member has"),
            (31, 32, "padding"),
            (32, 36, "u: A of union U at 52"),
            (36, 40, "x: value of a union under code 9, which no member has"),
            (40, 44, "nothing refers to these bytes"),
            *vtable("A", 44, 6, 8, ("n", 4)),
            (50, 52, "padding"),
            (52, 56, "u: table A, vtable at 44"),
            (56, 57, "u.n: ubyte = 77"),
            (57, 60, "padding"),
        ],
    ),
    (
        "optional scalars",
        "table T { a:int = null; b:short = null; } root_type T;",
        u32(12) + u16(6, 8, 4, 0) + i32(8) + i32(0),
        [
            (0, 4, "root: T at 12"),
            *vtable("T", 4, 6, 8, ("a", 4)),
            (10, 12, "padding"),
            (12, 16, "root: table T, vtable at 4"),
            (16, 20, "a: int = 0"),
        ],
    ),
    (
        "enums, flags and vectors of them",
        "enum E:ubyte { X, Y } enum F:ubyte (bit_flags) { P, Q, R } table T { e:E; f:F; g:F; v:[E]; w:[F]; }"
        " root_type T;",
        u32(20) + u16(14, 12, 4, 5, 6, 8, 0, 0)
        + i32(16) + u8(1, 5, 8, 0) + u32(4) + u32(3) + u8(0, 1, 3, 0),
        [
            (0, 4, "root: T at 20"),
            *vtable("T", 4, 14, 12, ("e", 4), ("f", 5), ("g", 6), ("v", 8), ("w", 0)),
            (18, 20, "padding"),
            (20, 24, "root: table T, vtable at 4"),
            (24, 25, 'e: E = "Y"'),
            (25, 26, 'f: F = "P R"'),
            (26, 27, "g: F = 8"),
            (27, 28, "padding"),
            (28, 32, "v: [E] at 32"),
            (32, 36, "v: [E], 3 elements"),
            (36, 39, 'v: [E] = ["X", "Y", 3]'),
            (39, 40, "padding"),
        ],
    ),
    (
        "a vtable, a table and a string that are shared",
        "table R { s:string; } table T { a:R; b:R; c:[R]; d:string; } root_type T;",
        # two tables R over one vtable; the first is reached three times, its string by both and by d
        u32(16) + u16(12, 20, 4, 8, 12, 16)
        + i32(12) + u32(36) + u32(32) + u32(16) + u32(40)
        + u16(6, 8, 4, 0)
        + u32(2) + u32(8) + u32(12)
        + i32(20) + u32(12)
        + i32(28) + u32(4)
        + text(b"xyz"),
        [
            (0, 4, "root: T at 16"),
            *vtable("T", 4, 12, 20, ("a", 4), ("b", 8), ("c", 12), ("d", 16)),
            (16, 20, "root: table T, vtable at 4"),
            (20, 24, "a: R at 56"),
            (24, 28, "b: R at 56"),
            (28, 32, "c: [R] at 44"),
            (32, 36, "d: string at 72"),
            *vtable("R", 36, 6, 8, ("s", 4), shared=", shared by 2 tables"),
            (42, 44, "padding"),
            (44, 48, "c: [R], 2 elements"),
            (48, 56, "c: [R]"),
            (48, 52, "  c[0]: R at 56"),
            (52, 56, "  c[1]: R at 64"),
            (56, 60, "a: table R, vtable at 36, shared by 3 references"),
            (60, 64, "a.s: string at 72"),
            (64, 68, "c[1]: table R, vtable at 36"),
            (68, 72, "c[1].s: string at 72"),
            (72, 76, "a.s: string, 3 bytes, shared by 3 references"),
            (76, 80, 'a.s: string = "xyz"'),
        ],
    ),
    (
        "strays, behind and between",
        "table T { a:ubyte; } root_type T;",
        u32(12) + u8(1, 2) + u16(6, 8, 4) + i32(6) + u8(9, 0, 0, 0) + u8(0, 0, 0, 0, 0, 0, 0, 0),
        [
            (0, 4, "root: T at 12"),
            (4, 6, "nothing refers to these bytes"),
            *vtable("T", 6, 6, 8, ("a", 4)),
            (12, 16, "root: table T, vtable at 6"),
            (16, 17, "a: ubyte = 9"),
            (17, 28, "nothing refers to these bytes"),
        ],
    ),
    (
        "a string in a vector's elements",
        "table T { v:[ubyte]; s:string; } root_type T;",
        TWO_FIELDS + u32(8) + u32(8) + u32(8) + text(b"abc"),
        [
            *two_fields("v", "s"),
            (16, 20, "v: [ubyte] at 24"),
            (20, 24, "s: string at 28"),
            (24, 28, "v: [ubyte], 8 elements"),
            (28, 36, "v: [ubyte] = [3, 0, 0, 0, 97, 98, 99, 0]"),
            (28, 32, "s: string, 3 bytes (overlaps what is above)"),
            (32, 36, 's: string = "abc" (overlaps what is above)'),
        ],
    ),
    (
        "one place as two types",
        "table T { v:[byte]; s:string; } root_type T;",
        TWO_FIELDS + u32(8) + u32(4) + text(b"abc"),
        [
            *two_fields("v", "s"),
            (16, 20, "v: [byte] at 24"),
            (20, 24, "s: string at 24"),
            (24, 28, "v: [byte], 3 elements"),
            (24, 28, "s: string, 3 bytes (overlaps what is above)"),
            (28, 31, "v: [byte] = [97, 98, 99]"),
            (28, 32, 's: string = "abc" (overlaps what is above)'),
        ],
    ),
    (
        "a slot that the schema doesn't have",
        "table T { a:ubyte; } root_type T;",
        TWO_FIELDS + u8(5, 0, 0, 0) + i32(-1),
        [
            *two_fields("a", "not in the schema"),
            (16, 17, "a: ubyte = 5"),
            (17, 20, "padding"),
            (20, 24, "root: field in slot 1, not in the schema"),
        ],
    ),
    (
        "a deprecated field",
        "table T { a:int (deprecated); b:ubyte; } root_type T;",
        TWO_FIELDS + i32(-1) + u8(5, 0, 0, 0),
        [
            *two_fields("a", "b"),
            (16, 20, "a: int = -1, deprecated"),
            (20, 21, "b: ubyte = 5"),
            (21, 24, "padding"),
        ],
    ),
    (
        "two types over one vtable",
        "table A { n:int; } table B { m:int; } table T { a:A; b:B; } root_type T;",
        TWO_FIELDS + u32(16) + u32(20)
        + u16(6, 8, 4, 0) + i32(8, 1) + i32(16, 2),
        [
            *two_fields("a", "b"),
            (16, 20, "a: A at 32"),
            (20, 24, "b: B at 40"),
            *vtable("A", 24, 6, 8, ("n", 4)),
            *vtable("B", 24, 6, 8, ("m", 4)),
            (30, 32, "padding"),
            (32, 36, "a: table A, vtable at 24"),
            (36, 40, "a.n: int = 1"),
            (40, 44, "b: table B, vtable at 24"),
            (44, 48, "b.m: int = 2"),
        ],
    ),
    (
        "characters that aren't plain, and a long string",
        "table T { a:string; b:string; } root_type T;",
        TWO_FIELDS + u32(8) + u32(20)
        + text(b'q"\\\n\x1b\xe2\x80\xae\xc3\xa9') + u8(0)
        + text(b"0123456789" * 4) + u8(0, 0, 0),
        [
            *two_fields("a", "b"),
            (16, 20, "a: string at 24"),
            (20, 24, "b: string at 40"),
            (24, 28, "a: string, 10 bytes"),
            (28, 39, r'a: string = "q\"\\\n\u001b\u{202e}é"'),
            (39, 40, "padding"),
            (40, 44, "b: string, 40 bytes"),
            (44, 85, 'b: string = "01234567890123456789012345678901"...'),
            (85, 88, "padding"),
        ],
    ),
]

TEXT = "table T { s:string; } root_type T;"
UNREACHED = "not reached before the fault"


def one_text(reference, behind):
    """A table with a string, up to its reference, and what is behind that."""
    return u32(12) + u16(0, 6, 8, 4) + i32(6) + u32(reference) + behind


ONE_TEXT = [
    (0, 4, "root: T at 12"),
    (4, 6, "padding"),
    *vtable("T", 6, 6, 8, ("s", 4)),
    (12, 16, "root: table T, vtable at 6"),
]

# Each ends with the fault's line, which stands behind the piece at the fault's offset.
FAULTS = [
    (
        "shorter than the root's offset", TEXT, u8(1, 2),
        [(0, 2, "the bytes end inside the root's offset"), (2, 2, "FAULT 50 Short at 2")],
        "50 Short at 2",
    ),
    (
        "another identifier", 'table T { a:int; } root_type T; file_identifier "ABCD";', SEVEN,
        [
            (0, 4, "root: T at 12"),
            (4, 8, r"file identifier '\u{0}\u{0}\u{6}\u{0}'"),
            (4, 4, "FAULT 52 WrongIdentifier at 4"),
            (8, 20, UNREACHED),
        ],
        "52 WrongIdentifier at 4",
    ),
    (
        "a root that isn't aligned", TEXT, u32(13) + SEVEN[4:],
        [
            (0, 4, "root: T at 13"),
            (4, 13, UNREACHED),
            (13, 17, "root: table T, vtable at -117440499"),
            (13, 13, "FAULT 53 Misaligned at 13 of root"),
            (17, 20, "padding"),
        ],
        "53 Misaligned at 13",
    ),
    (
        "a root behind the end", TEXT, u32(40) + SEVEN[4:],
        [
            (0, 4, "root: T at 40"),
            (4, 20, UNREACHED),
            (20, 20, "FAULT 54 OutOfBounds at 40 of root"),
        ],
        "54 OutOfBounds at 40",
    ),
    (
        "a reference of 0", TEXT, one_text(0, b""),
        [*ONE_TEXT, (16, 20, "s: string at 16"), (16, 16, "FAULT 55 ZeroOffset at 16 of s")],
        "55 ZeroOffset at 16",
    ),
    (
        "a vtable before the buffer", "table T { a:int; } root_type T;", u32(12) + u16(0, 6, 8, 4) + i32(100, 7),
        [
            (0, 4, "root: T at 12"),
            (4, 12, UNREACHED),
            (12, 16, "root: table T, vtable at -88"),
            (12, 12, "FAULT 56 BadVtable at 12 of root"),
            (16, 20, UNREACHED),
        ],
        "56 BadVtable at 12",
    ),
    (
        "a required field that is absent", "table T { s:string (required); } root_type T;",
        u32(8) + u16(4, 4) + i32(4),
        [
            (0, 4, "root: T at 8"),
            (4, 8, UNREACHED),
            (8, 12, "root: table T, vtable at 4"),
            (8, 8, "FAULT 57 MissingRequired at 8 slot 0 of root"),
        ],
        "57 MissingRequired at 8 slot 0",
    ),
    (
        "a string without its zero", TEXT, one_text(4, u32(3) + b"abcd"),
        [
            *ONE_TEXT,
            (16, 20, "s: string at 20"),
            (20, 24, "s: string, 3 bytes"),
            (24, 27, UNREACHED),
            (27, 27, "FAULT 58 NoTerminator at 27 of s"),
            (27, 28, UNREACHED),
        ],
        "58 NoTerminator at 27",
    ),
    (
        "a string that isn't UTF-8", TEXT, one_text(4, text(b"a\xff")),
        [
            *ONE_TEXT,
            (16, 20, "s: string at 20"),
            (20, 24, "s: string, 2 bytes"),
            (24, 25, UNREACHED),
            (25, 25, "FAULT 59 BadUtf8 at 25 of s"),
            (25, 27, UNREACHED),
        ],
        "59 BadUtf8 at 25",
    ),
    (
        "a string behind the end", TEXT, one_text(4, u32(30) + u32(0)),
        [
            *ONE_TEXT,
            (16, 20, "s: string at 20"),
            (20, 24, "s: string, 30 bytes"),
            (20, 20, "FAULT 54 OutOfBounds at 20 of s"),
            (24, 28, UNREACHED),
        ],
        "54 OutOfBounds at 20",
    ),
    (
        "a union's type without a value", "table A { n:int; } union U { A } table T { u:U; } root_type T;",
        u32(12) + u16(6, 8, 4, 0) + i32(8) + u8(1, 0, 0, 0),
        [
            (0, 4, "root: T at 12"),
            *vtable("T", 4, 6, 8, ("u_type", 4)),
            (10, 12, "padding"),
            (12, 16, "root: table T, vtable at 4"),
            (16, 16, "FAULT 60 UnionMismatch at 16 of u_type"),
            (16, 20, UNREACHED),
        ],
        "60 UnionMismatch at 16",
    ),
    (
        "the second of two strings", "table T { v:[string]; } root_type T;",
        u32(12) + u16(0, 6, 8, 4) + i32(6) + u32(4) + u32(2) + u32(8) + u32(6) + text(b"ab") + u8(0),
        [
            (0, 4, "root: T at 12"),
            (4, 6, "padding"),
            *vtable("T", 6, 6, 8, ("v", 4)),
            (12, 16, "root: table T, vtable at 6"),
            (16, 20, "v: [string] at 20"),
            (20, 24, "v: [string], 2 elements"),
            (24, 32, "v: [string]"),
            (24, 28, "  v[0]: string at 32"),
            (28, 32, "  v[1]: string at 34"),
            (32, 36, "v[0]: string, 2 bytes"),
            (34, 38, "v[1]: string, 1650524160 bytes (overlaps what is above)"),
            (34, 34, "FAULT 53 Misaligned at 34 of v[1]"),
            (36, 39, 'v[0]: string = "ab" (overlaps what is above)'),
            (39, 40, "padding"),
        ],
        "53 Misaligned at 34",
    ),
]


def chain(levels):
    """Tables in one another, each of which refers to the next twice; all have one vtable but the last."""
    data = u32(16) + u16(8, 12, 4, 8, 4, 4)
    for level in range(levels):
        at = len(data)
        data += i32(at - 4) + u32(8) + u32(4)
    return data + i32(len(data) - 12)


CHAIN = "table T { a:T; b:T; } root_type T;"


def chain_rows(levels):
    rows = [
        (0, 4, "root: T at 16"),
        *vtable("T", 4, 8, 12, ("a", 4), ("b", 8), shared=f", shared by {levels} tables"),
        *vtable("T", 12, 4, 4),
    ]
    for level in range(levels):
        at = 16 + 12 * level
        path = ".".join("a" for _ in range(level))
        shared = ", shared by 2 references" if level else ""
        rows += [
            (at, at + 4, f"{path or 'root'}: table T, vtable at 4{shared}"),
            (at + 4, at + 8, f"{path + '.' if path else ''}a: T at {at + 12}"),
            (at + 8, at + 12, f"{path + '.' if path else ''}b: T at {at + 12}"),
        ]
    at = 16 + 12 * levels
    path = ".".join("a" for _ in range(levels))
    return rows + [(at, at + 4, f"{path}: table T, vtable at 12, shared by 2 references")]


def rows(tests):
    for name, schema, data, wanted in ROWS:
        write("s.fbs", schema.encode())
        write("b.bin", data)
        tests.expect(name, ["inspect", "s.fbs", "b.bin"], 0, out=listing(data, wanted))


def faults(tests):
    for name, schema, data, wanted, fault in FAULTS:
        write("s.fbs", schema.encode())
        write("b.bin", data)
        told = f"{fault}\n".encode()
        tests.expect(name, ["inspect", "s.fbs", "b.bin"], 1, out=listing(data, wanted), err=told)
    write("s.fbs", b'table T { a:int; } root_type T; file_identifier "ABCD";')
    write("b.bin", SEVEN)
    done = tests.run(["inspect", "--raw-binary", "s.fbs", "b.bin"])
    tests.tell("raw bytes", done.returncode == 0 and b"a: int = 7" in done.stdout, repr(done.stdout))


def size_prefixed(tests):
    """Positions count from the count's first byte."""
    write("s.fbs", b"table T { a:int; } root_type T;")
    data = u32(20) + SEVEN
    wanted = [
        (0, 4, "count of the bytes after it: 20"),
        (4, 8, "root: T at 16"),
        (8, 10, "padding"),
        *vtable("T", 10, 6, 8, ("a", 4)),
        (16, 20, "root: table T, vtable at 10"),
        (20, 24, "a: int = 7"),
    ]
    write("b.bin", data)
    tests.expect("a size prefix", ["inspect", "--size-prefixed", "s.fbs", "b.bin"], 0, out=listing(data, wanted))
    cut = u32(21) + SEVEN
    wanted = [
        (0, 4, "count of the bytes after it: 21"),
        (0, 0, "FAULT 54 OutOfBounds at 0"),
        (4, 8, "root: T at 16"),
        (8, 24, UNREACHED),
    ]
    write("b.bin", cut)
    tests.expect("a count that is too large", ["inspect", "--size-prefixed", "s.fbs", "b.bin"], 1,
                 out=listing(cut, wanted), err=b"54 OutOfBounds at 0\n")


def cpu_of(tests, words):
    """How many seconds of a processor a call takes."""
    child = subprocess.Popen([tests.program, *words], stdout=subprocess.DEVNULL)
    _, status, usage = os.wait4(child.pid, 0)
    child.returncode = os.waitstatus_to_exitcode(status)
    return usage.ru_utime + usage.ru_stime


def many_ways(tests):
    """Of a million ways to the last table one is listed; more than the limit are a fault."""
    write("s.fbs", CHAIN.encode())
    write("b.bin", chain(20))
    start, last = listing(chain(20), chain_rows(20)).rsplit(b" ", 1)
    # the last line would be wider than 120 columns
    tests.expect("a million ways", ["inspect", "s.fbs", "b.bin"], 0, out=start + b"\n    " + last)
    write("b.bin", chain(25))
    inspected, checked = (cpu_of(tests, [job, "s.fbs", "b.bin"]) for job in ("inspect", "check"))
    told = f"{inspected} s, check {checked} s"
    tests.tell("thirty million ways are listed in a part of the time of a check", inspected < checked / 4, told)
    for name, levels, fault in [("ways past the limit", 40, b"63 TooManyCells"), ("too deep", 70, b"62 TooDeep")]:
        write("b.bin", chain(levels))
        done = tests.run(["inspect", "s.fbs", "b.bin"])
        good = done.returncode == 1 and done.stderr.startswith(fault) and b" FAULT " + fault in done.stdout
        tests.tell(name, good and covers(done.stdout, len(chain(levels))), repr(done.stdout[-300:]))


def joined(before, behind):
    """A root that refers to a chain of tables, and to one before it that leads there too."""
    data = u32(24) + u16(8, 12, 4, 8) + u16(4, 4) + u16(6, 8, 4) + bytes(2)
    data += i32(24 - 4) + u32(8 + 8 * before) + u32(4)
    for _ in range(before + behind):
        data += i32(len(data) - 16) + u32(4)
    return data + i32(len(data) - 12)


def deeper(tests):
    """A part that is reached again with more tables above it is listed once, and may be too deep there.

    The table of level k behind the root is at 36 + 8 (k - 2), and 64 levels are the most.
    """
    write("s.fbs", CHAIN.encode())
    write("b.bin", joined(20, 30))
    done = tests.run(["inspect", "s.fbs", "b.bin"])
    tables = [one for one in done.stdout.splitlines() if b": table T" in one]
    shared = [one for one in tables if b"shared" in one]
    good = done.returncode == 0 and len(tables) == 52 and len(shared) == 1
    tests.tell("a chain that is reached by two ways", good and b" a: table T" in shared[0], repr(done.stdout[-300:]))
    write("b.bin", joined(40, 30))
    done, checked = (tests.run([job, "s.fbs", "b.bin"]) for job in ("inspect", "check"))
    good = done.returncode == 1 and done.stderr == checked.stderr == b"62 TooDeep at 540\n"
    tests.tell("too deep by the second way", good, repr(done.stderr))


def covers(out, length):
    """Whether each byte is in the range of a line, and no range ends behind the bytes."""
    covered = bytearray(length)
    for one in out.decode().splitlines():
        begun = re.match(r" *(\d+)\.\.(\d+) ", one)
        if begun:
            start, end = int(begun[1]), int(begun[2])
            if end > length:
                return False
            covered[start:end] = b"\1" * (end - start)
    return all(covered)


def parts(out):
    """The tables, strings and vectors that are listed: where each begins, and its type."""
    return re.findall(rb"^ *(\d+)\.\..*: ((?:table )?[^ ,]+), (?:vtable at|\d+ (?:byte|element))", out, re.M)


def are_plain(out):
    return all(len(one) <= 120 and one.isprintable() for one in out.decode().splitlines())


def large(tests):
    """What a buffer of 100 MB takes, beside its own bytes."""
    count, step = 100_000, 1008
    first = 24 + 4 * count
    string = text(980 * b"x") + bytes(23)
    write("s.fbs", b"table T { a:[string]; } root_type T;")
    with open("b.bin", "wb") as file:
        file.write(SEVEN[:16] + u32(4, count))
        for number in range(count):
            at = 24 + 4 * number
            file.write(u32(first + step * number - at))
        for _ in range(count):
            file.write(string)
    size = first + step * count
    child = subprocess.Popen([tests.program, "inspect", "s.fbs", "b.bin"], stdout=subprocess.DEVNULL)
    _, status, usage = os.wait4(child.pid, 0)
    child.returncode = os.waitstatus_to_exitcode(status)
    beside = usage.ru_maxrss * 1024 - size
    tests.tell("100 MB", child.returncode == 0 and size > 100_000_000, f"status {child.returncode}, {size} bytes")
    tests.tell("the memory of 100 MB", beside <= PART_BYTES * count, f"{beside} bytes beside {size}")
    os.remove("b.bin")


def damaged(tests):
    """Bytes of the rows' buffers that were changed, cut off or moved."""
    chance = random.Random(65)
    samples = [(schema, data) for _, schema, data, _ in ROWS]
    for number, (schema, _) in enumerate(samples):
        write(f"{number}.fbs", schema.encode())

    def damage(data):
        kept = bytearray(data)
        for _ in range(chance.choice((1, 1, 2, 4))):
            at = chance.randrange(len(kept))
            kept[at] = chance.choice((0, 1, 2, 4, 8, 255, kept[at] ^ 1, kept[at] ^ 128, chance.randrange(256)))
        if chance.random() < 0.2:
            del kept[chance.randrange(len(kept)) :]
        return bytes(kept)

    cases = []
    for number in range(DAMAGED):
        which = number % len(samples)
        cases.append((number, which, damage(samples[which][1])))

    def inspect(case):
        number, which, data = case
        path = f"{number}.bin"
        write(path, data)
        words = [f"{which}.fbs", path]
        done = tests.run(["inspect", *words])
        checked = tests.run(["check", *words])
        listed = parts(done.stdout)
        good = (
            (done.returncode, done.stderr) == (checked.returncode, checked.stderr)
            and covers(done.stdout, len(data)) and are_plain(done.stdout)
            and (done.returncode == 0) == (b" FAULT " not in done.stdout)
            and len(listed) == len(set(listed))
        )
        if done.returncode == 1:
            fault = done.stderr.rstrip()
            told = [one for one in done.stdout.splitlines() if b" FAULT " in one]
            good = good and len(told) == 1 and b" FAULT " + fault in told[0]
            # each fault behind the header has its path
            good = good and (b" of " in told[0] or fault.split()[0] in (b"50", b"51", b"52"))
        return good, data.hex(), which, done, len(listed)

    with ThreadPoolExecutor(4) as pool:
        results = list(pool.map(inspect, cases))
    wrong = [result for result in results if not result[0]]
    tests.tell(f"{DAMAGED} damaged buffers", not wrong, f"{len(wrong)}, the first: {wrong[:1]}")
    broken = sum(result[3].returncode for result in results)
    tests.tell("of which many are refused", DAMAGED // 4 < broken < DAMAGED, str(broken))
    listed = sum(result[4] for result in results)
    tests.tell("and many parts are listed", listed > DAMAGED, str(listed))


def headers(tests):
    for name, data, lines in [
        ("a header", SEVEN, ["length: 20", "root offset: 12", "identifier: none", "size-prefixed: no"]),
        ("an identifier", u32(12) + b"ABCD" + u16(4, 4) + i32(4),
         ["length: 16", "root offset: 12", "identifier: 'ABCD'", "size-prefixed: no"]),
        ("a size-prefixed buffer", u32(20) + SEVEN,
         ["length: 24", "root offset: 12", "identifier: none", "size-prefixed: looks so"]),
        ("an empty file", b"", ["length: 0", "root offset: none", "identifier: none", "size-prefixed: no"]),
        ("an offset behind the end", u32(99, 0),
         ["length: 8", "root offset: 99, where no table can be", "identifier: none", "size-prefixed: no"]),
    ]:
        write("b.bin", data)
        out = "".join(f"{one}\n" for one in lines).encode()
        tests.expect(name, ["inspect", "--header", "b.bin"], 0, out=out)
        tests.expect(f"{name}, with --terse", ["inspect", "--header", "--terse", "b.bin"], 0, out=out)


if __name__ == "__main__":
    PROGRAM = program_of(sys.argv, __doc__)
    sys.exit(Tests("inspect", PROGRAM).main([rows, faults, size_prefixed, many_ways, deeper, headers, large, damaged]))
