#!/usr/bin/env python3
"""The command lines of docs/DIFFERENCES.md, of Google's flatc and of this one: they make files of the same values.

usage: tests/google.py PROGRAM

Where Google's flatc isn't installed, only this one's lines are run. The last line is 'N passed, M failed'.
"""
import json
import os
import re
import shutil
import subprocess
import sys

from harness import ROOT, Tests, content, program_of, write

ROW = re.compile(r"^\| `flatc ([^`]+)` \| `flatc ([^`]+)` \| (0|1) \|$", re.M)
ROWS = 10
ELF = {"name": "Elf", "hp": 50, "color": "Green", "weapons": [{"name": "bow", "damage": 7}]}
UNKNOWN = {"name": "Orc", "colors": ["Red"], "title": "chief"}
EXAMPLES = "monster.fbs monster.json monster.bin monster_v2.fbs orc.fbs orc.json".split()


def google():
    """Google's flatc, if it is installed."""
    found = shutil.which("flatc")
    said = found and subprocess.run([found, "--version"], capture_output=True, text=True, check=False).stdout
    return found if said and said.startswith("flatc version") else None


def lay_inputs(tests, folder):
    os.makedirs(f"{folder}/out")
    for name in EXAMPLES:
        shutil.copy(f"{ROOT}/examples/{name}", folder)
    shutil.copy(f"{ROOT}/examples/refused/orc_v2.fbs", folder)
    for name, value in {"elf.json": ELF, "unknown.json": UNKNOWN}.items():
        write(f"{folder}/{name}", json.dumps(value).encode())
    for schema, name in (("monster.fbs", "elf"), ("orc.fbs", "orc")):
        done = tests.run(["binary", schema, f"{name}.json", f"{name}.bin"], cwd=folder)
        tests.tell(f"{name}.bin", done.returncode == 0, f"{done}")


def without_absent(value):
    """A JSON value without members that are absent: Google's flatc prints these as null, or NONE in a union's place."""
    if isinstance(value, list):
        return [without_absent(it) for it in value]
    if not isinstance(value, dict):
        return value
    return {
        name: without_absent(it)
        for name, it in value.items()
        if it is not None and not (name.endswith("_type") and it == "NONE")
    }


def value_of(tests, path, line):
    """What a file that a command line made means."""
    if path.endswith(".json"):
        return without_absent(json.loads(content(path)))
    schema = re.search(r"\S+\.fbs", line)[0]
    more = ["--size-prefixed"] if "--size-prefixed" in line else []
    done = tests.run(["json", "--defaults-json", *more, f"{ROOT}/examples/{schema}", path])
    return done.stdout.decode() or done.stderr.decode()


def run(program, line, folder):
    """The status of a command line, and the files that it made."""
    done = subprocess.run([program, *line.split()], cwd=folder, capture_output=True, timeout=120, check=False)
    made = sorted(it for it in os.listdir(f"{folder}/out") if not it.endswith(".bfbs"))
    return done.returncode, made, f"{done.stdout + done.stderr}"


def lines(tests):
    rows = ROW.findall(content(f"{ROOT}/docs/DIFFERENCES.md").decode())
    tests.tell("the lines of docs/DIFFERENCES.md", len(rows) == ROWS, f"{len(rows)}")
    theirs = google()
    if not theirs:
        print("google: Google's lines: skipped; apt-get install flatbuffers-compiler", flush=True)
    for number, (line, own, status) in enumerate(rows):
        folder = f"own{number}"
        lay_inputs(tests, folder)
        have, made, said = run(tests.program, own, folder)
        tests.tell(f"flatc {own}", have == int(status) and bool(made) == ("-o" in own), f"{have}, {made}, {said}")
        if theirs:
            other = f"google{number}"
            lay_inputs(tests, other)
            have, names, said = run(theirs, line, other)
            tests.tell(f"Google's flatc {line}", (have, names) == (int(status), made), f"{have}, {names}, {said}")
            for name in made:
                values = [value_of(tests, f"{it}/out/{name}", own) for it in (folder, other)]
                tests.tell(f"{line}: {name}", values[0] == values[1], f"{values}")


def main():
    tests = Tests("google", program_of(sys.argv, __doc__))
    return tests.main([lines])


if __name__ == "__main__":
    sys.exit(main())
