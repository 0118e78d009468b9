#!/usr/bin/env python3
"""Times the built program on generated documents, beside Google's flatc where that is installed.

usage: bench/bench.py PROGRAM [--only WORD] [--rounds N] [--keep FOLDER] [--flatc PATH] [--parse PROGRAM]

Prints tables in Markdown: CPU time (user and system), time by the clock and peak memory of each program, the least of
all rounds, in which the programs take turns, and the ratio of the first to the second. `--keep` leaves the documents in
a folder. Where the program bench_json_parse is built (by `tools/build.py bench_json_parse`; `--parse` names another),
the peak memory of parsing a JSON text alone is printed as well.
"""
import argparse
import datetime
import json
import os
import platform
import random
import shlex
import shutil
import subprocess
import sys
import tempfile

ROOT = os.path.dirname(os.path.dirname(os.path.abspath(__file__)))
PARSER = f"{ROOT}/crates/bench_json_parse/out/bench_json_parse"
# Both programs nest this many tables.
LEVELS = 60


def monsters(numbers):
    """The example's schema, under a root that has many monsters."""
    with open(f"{ROOT}/examples/monster.fbs", encoding="utf-8") as it:
        schema = it.read().replace("root_type Monster;", "table Horde { monsters:[Monster]; }\nroot_type Horde;")
    with open(f"{ROOT}/examples/monster.json", encoding="utf-8") as it:
        orc = json.load(it)

    def monster(k):
        equipped = {"name": f"fog {k}", "cost": k % 99} if k % 3 else {"name": f"axe {k}", "damage": k % 99}
        return {
            **orc,
            "name": f"Orc {k}",
            "hp": k % 900,
            "inventory": [numbers.randrange(256) for _ in range(12)],
            "equipped_type": "Spell" if k % 3 else "Weapon",
            "equipped": equipped,
        }

    return schema, {"monsters": [monster(k) for k in range(14_000)]}


def small_tables(numbers):
    schema = "table P { x:int; y:int; name:string; } table R { points:[P]; } root_type R;"
    points = [{"x": numbers.randrange(1, 9999), "y": k + 1, "name": f"p{k}"} for k in range(180_000)]
    return schema, {"points": points}


def tree(numbers):
    """Small tables in one another: a binary tree at whose leaves are longer branches."""
    schema = "table N { left:N; right:N; v:int; } root_type N;"

    def node(levels):
        if levels == 0:
            return branch(LEVELS - 15)
        return {"left": node(levels - 1), "right": node(levels - 1), "v": numbers.randrange(1, 9999)}

    def branch(levels):
        found = {"v": 1}
        for k in range(levels):
            found = {"left": found, "v": k + 1}
        return found

    return schema, node(12)


def integers(numbers):
    schema = "table R { a:[int]; b:[ulong]; c:[ubyte]; } root_type R;"
    return schema, {
        "a": [numbers.randrange(-(2**31), 2**31) for _ in range(300_000)],
        "b": [numbers.randrange(2**63) for _ in range(150_000)],
        "c": [numbers.randrange(256) for _ in range(600_000)],
    }


def short_texts(_numbers):
    return "table R { texts:[string]; } root_type R;", {"texts": [f"text {k}" for k in range(400_000)]}


def long_texts(numbers):
    letters = "abcdefghijklmnopqrstuvwxyz ÄÖÜ\n\""
    page = "".join(numbers.choices(letters, k=100_000))
    return "table R { texts:[string]; } root_type R;", {"texts": [page[k:] for k in range(100)]}


FLAGS = ["Fly", "Swim", "Burrow", "Invisible", "Silent", "Fierce", "Cold", "Old"]


def flags(numbers):
    schema = f"enum Power : ubyte (bit_flags) {{ {', '.join(FLAGS)} }} table R {{ powers:[Power]; }} root_type R;"

    def some():
        return " ".join(sorted(numbers.sample(FLAGS, numbers.randrange(1, 5)), key=FLAGS.index))

    return schema, {"powers": [some() for _ in range(200_000)]}


def names(numbers):
    schema = "enum Color : byte { Red, Green, Blue } table R { colors:[Color]; } root_type R;"
    return schema, {"colors": [numbers.choice(["Red", "Green", "Blue"]) for _ in range(600_000)]}


def wide(numbers):
    """Tables of a thousand fields, of which ten to thirty are there."""
    fields = " ".join(f"field_{k}:int;" for k in range(1000))
    schema = f"table W {{ {fields} }} table R {{ rows:[W]; }} root_type R;"

    def row():
        stored = sorted(numbers.sample(range(1000), numbers.randrange(10, 31)))
        return {f"field_{k}": numbers.randrange(1, 9999) for k in stored}

    return schema, {"rows": [row() for _ in range(6000)]}


def vtables(numbers):
    """Ten thousand tables that all have other fields."""
    fields = " ".join(f"f{k}:int;" for k in range(16))
    schema = f"table T {{ {fields} }} table R {{ rows:[T]; }} root_type R;"
    masks = numbers.sample(range(1, 2**16), 10_000)
    rows = [{f"f{k}": mask + k for k in range(16) if mask >> k & 1} for mask in masks]
    return schema, {"rows": rows}


DOCUMENTS = {
    "monsters": monsters,
    "small tables": small_tables,
    "tree of tables": tree,
    "integers": integers,
    "short texts": short_texts,
    "long texts": long_texts,
    "flags": flags,
    "enum names": names,
    "wide and sparse": wide,
    "10,000 vtables": vtables,
}


class Took:
    """The least CPU time, time by the clock and peak memory of a command's runs, in seconds and MB."""

    def __init__(self):
        self.cpu = self.wall = self.memory = float("inf")

    def add(self, figures):
        cpu, wall, peak = figures
        self.cpu = min(self.cpu, float(cpu))
        self.wall = min(self.wall, float(wall))
        self.memory = min(self.memory, int(peak) / 1024)


class Runner:
    """Runs commands by bench/runner.c, which says what each took."""

    def __init__(self, folder):
        self.folder = os.path.abspath(folder)
        self.program = f"{self.folder}/runner"
        compiler = shlex.split(os.environ.get("CC") or "cc")
        subprocess.run([*compiler, "-O2", "-o", self.program, f"{ROOT}/bench/runner.c"], check=True)

    def run(self, words):
        """Seconds of CPU time, seconds by the clock, and the peak in KiB."""
        with open(f"{self.folder}/stdout", "wb") as stdout:
            done = subprocess.run([self.program, *words], stdout=stdout, stderr=subprocess.PIPE, text=True)
        if done.returncode != 0:
            raise SystemExit(f"bench: {' '.join(words)}: status {done.returncode}: {done.stderr}")
        return done.stderr.splitlines()[-1].split()

    def take_turns(self, commands, rounds):
        found = [Took() for _ in commands]
        for _ in range(rounds):
            for took, words in zip(found, commands):
                took.add(self.run(words))
        return found


def row(name, size, programs, *others):
    """A line of a table: what each program took, and of two the ratio; of the others the peak alone."""
    cells = [name, f"{size / 1e6:.1f}"]
    for unit, digits in [("cpu", 3), ("wall", 3), ("memory", 0)]:
        figures = [getattr(took, unit) for took in programs]
        cells += [f"{figure:.{digits}f}" for figure in figures]
        if len(figures) > 1 and unit != "memory":
            cells.append(f"{figures[0] / figures[1]:.2f}")
    return cells + [f"{took.memory:.0f}" for took in others]


def head(size, programs, *others):
    cells = ["Document", f"{size}, MB"]
    for unit in ["CPU s", "wall s", "peak MB"]:
        cells += [unit, *programs[1:]]
        if len(programs) > 1 and unit != "peak MB":
            cells.append("ratio")
    cells += others
    return [cells, ["---"] + ["---:"] * (len(cells) - 1)]


def show(title, rows):
    print(f"{title}:\n")
    for cells in rows:
        print(f"| {' | '.join(cells)} |")
    print(flush=True)


def write_document(make, at):
    os.makedirs(at, exist_ok=True)
    schema, value = make(random.Random(34))
    with open(f"{at}/data.fbs", "w", encoding="utf-8") as it:
        it.write(schema)
    with open(f"{at}/data.json", "w", encoding="utf-8") as it:
        json.dump(value, it, ensure_ascii=False, separators=(",", ":"))


def write_documents(folder, only):
    """The names of the documents, each with its folder, which has data.fbs and data.json."""
    found = []
    for name, make in DOCUMENTS.items():
        if only in name:
            at = f"{folder}/{name.replace(' ', '_').replace(',', '')}"
            write_document(make, at)
            found.append((name, at))
    return found


def bench(runner, program, other, parser, rounds, documents):
    programs = ["flatc here"] + (["Google's"] if other else [])
    to_buffer, to_json, check = [], [], []
    for name, at in documents:
        schema, text, buffer, out = f"{at}/data.fbs", f"{at}/data.json", f"{at}/ours.bin", f"{at}/theirs"
        commands = [[program, "binary", schema, text, buffer]]
        if other:
            commands.append([other, "-b", "-o", out, schema, text])
        if parser:
            commands.append([parser, text])
        took = runner.take_turns(commands, rounds)
        count = len(programs)
        to_buffer.append(row(name, os.path.getsize(text), took[:count], *took[count:]))
        size = os.path.getsize(buffer)
        commands = [[program, "json", "--raw-binary", schema, buffer]]
        if other:
            commands.append([other, "-t", "--strict-json", "--raw-binary", "-o", out, schema, "--", buffer])
        to_json.append(row(name, size, runner.take_turns(commands, rounds)))
        commands = [[program, "check", "--raw-binary", schema, buffer]]
        check.append(row(name, size, runner.take_turns(commands, rounds)))
    show("JSON to a buffer", head("JSON", programs, *(["parsing alone"] if parser else [])) + to_buffer)
    show("A buffer to JSON", head("buffer", programs) + to_json)
    show("Checking", head("buffer", programs[:1]) + check)


def main():
    parser = argparse.ArgumentParser(usage=__doc__.split("\n\n")[1].removeprefix("usage: "))
    parser.add_argument("program")
    parser.add_argument("--only", default="")
    parser.add_argument("--rounds", type=int, default=5)
    parser.add_argument("--keep")
    parser.add_argument("--flatc", default=shutil.which("flatc"))
    parser.add_argument("--parse", default=PARSER if os.path.exists(PARSER) else None)
    words = parser.parse_args()
    with tempfile.TemporaryDirectory() as built:
        documents = write_documents(words.keep or built, words.only)
        print(f"{datetime.date.today()}, {platform.machine()}, {os.cpu_count()} processors", end="")
        if words.flatc:
            version = subprocess.run([words.flatc, "--version"], capture_output=True, text=True, check=True)
            print(f", beside {version.stdout.strip()}", end="")
        print(". The least of", words.rounds, "rounds.\n")
        bench(Runner(built), words.program, words.flatc, words.parse, words.rounds, documents)


if __name__ == "__main__":
    sys.exit(main())
