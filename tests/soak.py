#!/usr/bin/env python3
"""Schemas of every kind, values that fit, their buffers, and damage of several bytes at once.

usage: tests/soak.py PROGRAM [--seed N] [--schemas N] [--damages N] [--size FLATC]

PROGRAM is built of crates/test_hostile. Each schema gets a JSON text. Its buffer has to print as the value that was
made here, and that value has to be built as the same bytes. Each damage of it has to be read alike by both readers, and
where it still holds a value, print as a text that means this value and whose buffer holds it. With --size the program
FLATC converts files of some gigabytes too. The last line is 'N passed, M failed'.
"""
import argparse
import json
import os
import random
import re
import subprocess
import sys
import time
from concurrent.futures import ThreadPoolExecutor

from harness import Tests
from sizes import sizes

BASES = {
    "bool": (0, 1),
    "byte": (-128, 127),
    "ubyte": (0, 255),
    "short": (-32768, 32767),
    "ushort": (0, 65535),
    "int": (-(2**31), 2**31 - 1),
    "uint": (0, 2**32 - 1),
    "long": (-(2**63), 2**63 - 1),
    "ulong": (0, 2**64 - 1),
}
TALLY = re.compile(r"(\d+) held, (\d+) unnamed, (\d+) refused")
# As many rows go to one process.
BATCH = 20
LEVELS = 5
HAND = (
    "table P { x:int; } table T { n:int; s:string (required); qs:[P]; ts:[string]; ps:[P]; ns:[short]; } root_type T;"
)
TEXTS = (
    '{"n":5,"s":"hi","qs":[],"ts":["a","bcd"],"ps":[{"x":1},{"x":2}],"ns":[1,-1]}',
    '{"n":5,"s":"hi","qs":[],"ts":[],"ps":[],"ns":[1,-1]}',
    '{"s":"hi"}',
    '{"s":"hi","qs":[{"x":1}],"ts":["%s","%s"],"ps":[{"x":2}]}' % ("x" * 70_000, "y" * 20_001),
)
LETTERS = "abcXYZ 019_.,:;/\"\\\n\t{}[]\u00e4\u00df\u20ac\u4e2d\U0001f600\x01\x1f"


class Values(list):
    """An enum's names and numbers, and whether they are flags."""

    flags = False

    def shown(self, number):
        """How a number is printed: by its name, several flags by all of theirs, and a nameless one as itself."""
        if not self.flags:
            return next((name for name, named in self if named == number), number)
        names = [name for name, named in self if named & number]
        return " ".join(names) if number and sum(dict(self)[name] for name in names) == number else number


class Schema:
    """A schema text, and values of its root, each as JSON and as it has to be printed."""

    def __init__(self, seed):
        self.dice = random.Random(seed)
        self.parts = []
        self.enums = [self.enum(f"E{k}") for k in range(self.dice.randrange(4))]
        self.structs = []
        for k in range(self.dice.randrange(4)):
            self.structs.append(self.struct(f"S{k}"))
        self.tables = [(f"T{k}", []) for k in range(self.dice.randrange(1, 5))]
        self.unions = [self.union(f"U{k}") for k in range(self.dice.randrange(3))]
        for name, fields in self.tables:
            self.table(name, fields)
        self.dice.shuffle(self.parts)
        # a struct is declared before it is used in another
        structs = iter(sorted(part for part in self.parts if part.startswith("struct")))
        self.parts = [next(structs) if part.startswith("struct") else part for part in self.parts]
        if self.dice.random() < 0.3:
            self.parts.insert(0, "namespace a.b;")
        root, self.root = self.dice.choice(self.tables)
        self.parts.append(f"root_type {root};")
        if self.dice.random() < 0.3:
            self.parts.append('file_identifier "SOAK";')
        self.text = " ".join(self.parts)

    def number(self, base):
        low, high = BASES[base]
        return self.dice.choice((low, high, 0, 1, self.dice.randint(low, high), self.dice.randint(0, min(high, 9))))

    def enum(self, name):
        flags = self.dice.random() < 0.3
        base = self.dice.choice([base for base in BASES if base != "bool" and (not flags or base.startswith("u"))])
        if flags:
            width = BASES[base][1].bit_length()
            places = sorted(self.dice.sample(range(width), self.dice.randint(1, min(width, 5))))
            values = [(f"V{k}", 1 << place) for k, place in enumerate(places)]
            declared = ", ".join(f"V{k} = {place}" for k, place in enumerate(places))
        else:
            low, high = BASES[base]
            low, high = max(low, -300), min(high, 300)
            numbers = sorted({0, *(self.dice.randint(low, high) for _ in range(self.dice.randrange(5)))})
            values = [(f"V{k}", number) for k, number in enumerate(numbers)]
            declared = ", ".join(f"{value} = {number}" for value, number in values)
        self.parts.append(f"enum {name}:{base}{' (bit_flags)' if flags else ''} {{ {declared} }}")
        values = Values(values)
        values.flags = flags
        return name, base, values

    def simple(self):
        """A scalar's or enum's type: its name, its base, and the enum's values."""
        if self.enums and self.dice.random() < 0.3:
            return self.dice.choice(self.enums)
        base = self.dice.choice(list(BASES))
        return base, base, None

    def struct(self, name):
        fields = []
        for k in range(self.dice.randint(1, 4)):
            if self.structs and self.dice.random() < 0.3:
                inner = self.dice.choice(self.structs)
                fields.append((f"f{k}", "struct", inner[0], inner))
            else:
                kind, base, values = self.simple()
                fields.append((f"f{k}", "simple", kind, (base, values)))
        listed = " ".join(f"{field}:{kind};" for field, _, kind, _ in fields)
        align = " (force_align: 16)" if self.dice.random() < 0.2 else ""
        self.parts.append(f"struct {name}{align} {{ {listed} }}")
        return name, fields

    def union(self, name):
        members = []
        for k in range(self.dice.randint(1, 3)):
            table = self.dice.choice(self.tables)
            members.append((f"M{k}", table))
        self.parts.append(f"union {name} {{ {', '.join(f'{member}:{table[0]}' for member, table in members)} }}")
        return name, members

    def element(self):
        kinds = ["simple", "string", "table"] + ["struct"] * bool(self.structs)
        kind = self.dice.choice(kinds)
        if kind == "simple":
            name, base, values = self.simple()
            return kind, name, (base, values)
        if kind == "string":
            return kind, "string", None
        if kind == "table":
            table = self.dice.choice(self.tables)
            return kind, table[0], table
        struct = self.dice.choice(self.structs)
        return kind, struct[0], struct

    def table(self, name, fields):
        listed = []
        for k in range(self.dice.randrange(7)):
            field = {"name": f"f{k}", "default": 0, "optional": False, "required": False, "gone": False}
            roll = self.dice.random()
            attributes, default = [], ""
            if roll < 0.45:
                kind, base, values = self.simple()
                field.update(kind="simple", more=(base, values))
                default = self.default(field, base, values)
            elif roll < 0.6 and self.unions:
                union = self.dice.choice(self.unions)
                kind = union[0]
                field.update(kind="union", more=union)
            elif roll < 0.8:
                inner, kind, more = self.element()
                kind = f"[{kind}]"
                field.update(kind="vector", more=(inner, more))
            else:
                inner, kind, more = self.element()
                field.update(kind=inner, more=more)
                if inner == "simple":
                    default = self.default(field, *more)
            if self.dice.random() < 0.1:
                field["gone"] = True
                attributes.append("deprecated")
            elif field["kind"] in ("string", "vector", "struct") and self.dice.random() < 0.15:
                field["required"] = True
                attributes.append("required")
            given = f" ({', '.join(attributes)})" if attributes else ""
            listed.append(f"f{k}:{kind}{default}{given};")
            fields.append(field)
        self.parts.append(f"table {name} {{ {' '.join(listed)} }}")

    def default(self, field, base, values):
        roll = self.dice.random()
        if roll < 0.2:
            field["optional"] = True
            return " = null"
        if values and (roll < 0.6 or 0 not in dict(values).values()):
            name, field["default"] = self.dice.choice(values)
            return f" = {name}"
        if not values and roll < 0.5:
            field["default"] = self.number(base)
            return f" = {['false', 'true'][field['default']] if base == 'bool' else field['default']}"
        return ""

    def simple_value(self, base, values):
        """A number as JSON, as it has to be printed, and itself."""
        if values and self.dice.random() < 0.8:
            some = self.dice.sample(values, self.dice.randint(1, len(values)) if values.flags else 1)
            number = sum(number for _, number in some)
            return self.dice.choice((" ".join(name for name, _ in some), number)), values.shown(number), number
        number = self.number(base)
        if base == "bool":
            return self.dice.choice((number, bool(number))), bool(number), number
        return number, values.shown(number) if values else number, number

    def struct_value(self, struct):
        given, shown = {}, {}
        for name, kind, _, more in struct[1]:
            if kind == "struct":
                given[name], shown[name] = self.struct_value(more)
            else:
                given[name], shown[name], _ = self.simple_value(*more)
        return given, shown

    def text_value(self):
        return "".join(self.dice.choice(LETTERS) for _ in range(self.dice.randrange(12)))

    def value(self, kind, more, levels):
        if kind == "simple":
            given, shown, _ = self.simple_value(*more)
            return given, shown
        if kind == "string":
            text = self.text_value()
            return text, text
        if kind == "struct":
            return self.struct_value(more)
        if kind == "table":
            return self.table_value(more, levels - 1)
        inner, more = more
        count = self.dice.choice((0, 1, 2, 3, 5)) if inner != "table" or levels > 1 else 0
        pairs = [self.value(inner, more, levels) for _ in range(count)]
        return [given for given, _ in pairs], [shown for _, shown in pairs]

    def table_value(self, table, levels):
        given, shown = {}, {}
        for field in table[1]:
            name, kind, more = field["name"], field["kind"], field["more"]
            if field["gone"] or (not field["required"] and self.dice.random() < 0.25):
                continue
            if kind == "union":
                if levels > 1:
                    member, inner = self.dice.choice(more[1])
                    given[name], shown[name] = self.table_value(inner, levels - 1)
                    given[f"{name}_type"] = shown[f"{name}_type"] = member
                elif self.dice.random() < 0.5:
                    given[f"{name}_type"] = "NONE"
            elif kind == "simple":
                one, text, number = self.simple_value(*more)
                given[name] = one
                if field["optional"] or number != field["default"]:
                    shown[name] = text
            elif kind != "table" or levels > 1:
                given[name], shown[name] = self.value(kind, more, levels)
        return given, shown

    def root_value(self):
        return self.table_value((None, self.root), LEVELS)


def rows_of(seed, count, damages):
    """Lines for the program, and what each buffer has to print."""
    lines, wanted = [], []
    for k in range(count):
        schema = Schema(seed + k)
        given, shown = schema.root_value()
        text = json.dumps(given, ensure_ascii=schema.dice.random() < 0.5)
        lines.append(f"{schema.text}\t{text}\t{seed + k}\t{damages}")
        wanted.append(json.dumps(shown, sort_keys=True))
    return lines, wanted


def answers_of(printed):
    """Each row's first line, and the text behind it, which ends with an empty line; a refusal has none."""
    lines = iter(printed.splitlines())
    for head in lines:
        text = []
        if "held" in head or "wrong" in head:
            text = list(iter(lambda: next(lines), ""))
        yield head, "\n".join(text)


def soak_batch(tests, seed, count, damages):
    """Soaks some schemas; returns how many damaged buffers held a value, had a code without a name and were refused."""
    lines, wanted = rows_of(seed, count, damages)
    done = subprocess.run([tests.program, "soak"], input="\n".join(lines).encode(), capture_output=True, check=False)
    sums = [0, 0, 0]
    if done.returncode != 0 or done.stderr:
        tests.tell(f"the batch of seed {seed}", False, f"{done.returncode} {done.stderr}")
        return sums
    answers = list(answers_of(done.stdout.decode()))
    tests.tell(f"the answers of seed {seed}", len(answers) == len(lines), f"{len(answers)} of {len(lines)}")
    for line, want, (head, text) in zip(lines, wanted, answers):
        tally = TALLY.fullmatch(head)
        if not tally:
            tests.tell(f"a row of seed {seed}", False, f"{head} of {line}")
            continue
        found = list(map(int, tally.groups()))
        sums = [a + b for a, b in zip(sums, found)]
        tests.tell("how often a buffer is damaged", sum(found) == damages + 1, head)
        printed = json.dumps(json.loads(text), sort_keys=True)
        tests.tell("the text of a buffer", printed == want, f"{printed}, not {want}, of {line}")
    return sums


def by_hand(tests):
    """Entries and elements that come in one by one, and tables with one vtable behind long texts."""
    lines = "".join(f"{HAND}\t{text}\t1\t0\n" for text in TEXTS)
    done = subprocess.run([tests.program, "soak"], input=lines.encode(), capture_output=True, check=False)
    for text, (head, printed) in zip(TEXTS, answers_of(done.stdout.decode()), strict=True):
        tests.tell(f"a buffer of {text[:60]}", head == "1 held, 0 unnamed, 0 refused", head[:200])
        tests.tell(f"the text of {text[:60]}", json.loads(printed) == json.loads(text), printed[:200])


def soak(given):
    def part(tests):
        began = time.monotonic()
        with ThreadPoolExecutor(os.cpu_count()) as pool:
            starts = range(given.seed, given.seed + given.schemas, BATCH)
            rows = [
                pool.submit(soak_batch, tests, start, min(BATCH, given.seed + given.schemas - start), given.damages)
                for start in starts
            ]
            held, unnamed, refused = map(sum, zip(*(row.result() for row in rows)))
        seconds = time.monotonic() - began
        tests.tell("each outcome was met", min(held, unnamed, refused) > 0, f"{held}, {unnamed}, {refused}")
        print(
            f"soak: {given.schemas} schemas and buffers, {given.schemas * given.damages} damaged ones: "
            f"{held} held a value, {unnamed} had a code without a name, {refused} were refused; {seconds:.0f} seconds"
        )

    return part


def main():
    parser = argparse.ArgumentParser(description=__doc__.split("\n", 1)[0])
    parser.add_argument("program")
    parser.add_argument("--seed", type=int, default=1)
    parser.add_argument("--schemas", type=int, default=100)
    parser.add_argument("--damages", type=int, default=50)
    parser.add_argument("--size", default="")
    given = parser.parse_args()
    tests = Tests("soak", os.path.abspath(given.program))
    parts = [by_hand, soak(given)]
    if given.size:
        parts.append(sizes(os.path.abspath(given.size)))
    return tests.main(parts)


if __name__ == "__main__":
    sys.exit(main())
