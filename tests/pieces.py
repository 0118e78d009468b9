#!/usr/bin/env python3
"""JSON texts with none to three faults: read in pieces of a few bytes each has the outcome that it has when it is read
at once.

usage: tests/pieces.py PROGRAM [--seed N] [--texts N]

PROGRAM is built of crates/test_hostile. The schemas and values are those of tests/soak.py. A fault is one of the text,
as a byte that is lost, or one of what it means, as a number in place of a text. Whether a text is JSON is judged here
too. The last line is 'N passed, M failed'.
"""
import argparse
import copy
import json
import os
import random
import re
import subprocess
import sys
from concurrent.futures import ThreadPoolExecutor

from harness import Tests
from soak import Schema

BATCH = 200
BLANKS = ("", "", "", " ", "\r", "  ")
# Wrong in most places, right in some.
OTHERS = (None, True, -1, 300, 1.5, 2**70, "", "V0", [], [[]], [None], {}, {"f0": 1}, {"x": [1, {"y": "]"}]}, "\",]}")
DIGITS = re.compile(r"-?[0-9]+")


class Texts:
    """JSON texts of values of one schema."""

    def __init__(self, seed):
        self.schema = Schema(seed)
        self.dice = random.Random(seed)

    def other(self):
        return copy.deepcopy(self.dice.choice(OTHERS))

    def places(self, value, found):
        """The places of a tree: each is an object or array, and a key of it."""
        if isinstance(value, (dict, list)):
            for key in value if isinstance(value, dict) else range(len(value)):
                found.append((value, key))
                self.places(value[key], found)
        return found

    def spoil(self, value):
        """Puts a fault into what a tree means."""
        places = self.places(value, [])
        if not places:
            value["f9"] = 1
            return
        holder, key = self.dice.choice(places)
        roll = self.dice.random()
        if roll < 0.5:
            holder[key] = self.other()
        elif roll < 0.7 and isinstance(holder, dict):
            holder[self.dice.choice(("f9", "f0_type", "", "f1"))] = holder.pop(key)
        elif isinstance(holder, list):
            holder += [copy.deepcopy(holder[key]) for _ in range(self.dice.choice((1, 3, 50)))]
        else:
            holder["f8"] = self.other()

    def written(self, value):
        """A tree as a text, with blanks between its parts, and at times a member that comes twice."""
        blank = self.dice.choice(BLANKS)
        if isinstance(value, dict):
            members = list(value.items())
            if members and self.dice.random() < 0.1:
                name, _ = self.dice.choice(members)
                members.insert(self.dice.randrange(len(members)), (name, self.other()))
            self.dice.shuffle(members)
            parts = [f"{blank}{json.dumps(name)}{blank}:{blank}{self.written(it)}" for name, it in members]
            return "{" + f"{blank},".join(parts) + blank + "}"
        if isinstance(value, list):
            return "[" + f"{blank},".join(blank + self.written(it) for it in value) + blank + "]"
        return json.dumps(value, ensure_ascii=self.dice.random() < 0.5)

    def break_text(self, text):
        """Puts a fault into a text."""
        at = self.dice.randrange(len(text))
        roll = self.dice.random()
        if roll < 0.4:
            return text[:at] + text[at + 1 :]
        if roll < 0.8:
            return text[:at] + self.dice.choice('{}[],:"\\ 0a') + text[at:]
        return text[:at] + text[at : at + 9] + text[at:]

    def text(self):
        value, _ = self.schema.root_value()
        faults = self.dice.choice((0, 1, 1, 2, 3))
        in_text = self.dice.choice((0, 0, 0, 1)) if faults else 0
        for _ in range(faults - in_text):
            self.spoil(value)
        text = self.dice.choice(BLANKS) + self.written(value) + self.dice.choice(BLANKS)
        for _ in range(in_text):
            text = self.break_text(text)
        return text


def refuse(word):
    raise ValueError(word)


def is_json(text):
    """Whether a text is JSON for a reader that has nothing of serde_json's; None where they may differ."""
    try:
        json.loads(text, parse_constant=refuse)
    except (ValueError, RecursionError):
        return False
    # a number that is too large for a double, or a half of a surrogate pair, is refused by one reader and not the other
    return None if "\\ud" in text.lower() or re.search(r"[0-9][eE]", text) else True


def tell_batch(tests, seed, count):
    """Tells some texts; returns how many of each outcome there were."""
    lines = []
    for k in range(0, count, 10):
        texts = Texts(seed + k)
        lines += [(texts.schema.text, texts.text().replace("\t", " ")) for _ in range(10)]
    given = "\n".join("\t".join(line) for line in lines).encode("utf-8", "surrogatepass")
    done = subprocess.run([tests.program, "pieces"], input=given, capture_output=True, check=False)
    told = done.stdout.decode().splitlines()
    if done.returncode != 0 or len(told) != 2 * len(lines):
        tests.tell(f"the batch of seed {seed}", False, f"{done.returncode} {done.stderr}, {len(told)} lines")
        return {}
    met = {}
    for k, line in enumerate(lines):
        judged = is_json(line[1])
        for outcome in told[2 * k : 2 * k + 2]:
            wrong = outcome.startswith("another") or outcome in ("no row", "no memory", "the schema is refused")
            wrong = wrong or (judged is not None and judged == (outcome == "no JSON"))
            tests.tell("a text in pieces", not wrong, f"{outcome}: {line}")
            kind = re.sub(r"[0-9]+", "N", outcome)
            met[kind] = met.get(kind, 0) + 1
    return met


def pieces(given):
    def part(tests):
        with ThreadPoolExecutor(os.cpu_count()) as pool:
            starts = range(0, given.texts, BATCH)
            rows = [pool.submit(tell_batch, tests, given.seed + start,
            min(BATCH, given.texts - start)) for start in starts]
            met = {}
            for row in rows:
                for kind, count in row.result().items():
                    met[kind] = met.get(kind, 0) + count
        for kind in ("a buffer", "no JSON"):
            tests.tell(f"texts with {kind}", met.get(kind, 0) > given.texts / 20, f"{met}")
        tests.tell("texts with faults", len(met) >= 8, f"{met}")
        listed = ", ".join(f"{count} {kind}" for kind, count in sorted(met.items(), key=lambda it: -it[1]))
        print(f"pieces: {given.texts} texts, each with and without unknown fields: {listed}")

    return part


def main():
    parser = argparse.ArgumentParser(description=__doc__.split("\n", 1)[0])
    parser.add_argument("program")
    parser.add_argument("--seed", type=int, default=1)
    parser.add_argument("--texts", type=int, default=10_000)
    given = parser.parse_args()
    tests = Tests("pieces", os.path.abspath(given.program))
    return tests.main([pieces(given)])


if __name__ == "__main__":
    sys.exit(main())
