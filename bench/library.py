#!/usr/bin/env python3
"""Counts the instructions of one call of the library for C, beside Google's libflatbuffers with its schema kept.

usage: bench/library.py FOLDER [--calls N]

FOLDER has libflatc.a. Each call is made N times on examples/monster.fbs and a JSON text of 1 kB, and no time, under
valgrind's callgrind, which counts instructions; the difference is divided by N. Prints a table in Markdown. Where
libflatbuffers is not installed (apt-get install libflatbuffers-dev flatbuffers-compiler), its column is left out.
"""
import argparse
import os
import re
import shlex
import shutil
import subprocess
import sys
import tempfile

ROOT = os.path.dirname(os.path.dirname(os.path.abspath(__file__)))
HERE = os.path.join(ROOT, "bench", "library")
SCHEMA = os.path.join(ROOT, "examples", "monster.fbs")
MESSAGE = os.path.join(HERE, "message.json")
CALLS = ("encode", "decode", "verify", "schema_parse")


def instructions(words, folder):
    """The instructions that a program takes."""
    count = ["valgrind", "--tool=callgrind", f"--callgrind-out-file={folder}/callgrind"]
    ran = subprocess.run([*count, *words], capture_output=True, text=True, check=True)
    return int(re.search(r"Collected : (\d+)", ran.stderr)[1])


def of_one_call(program, call, count, folder, more):
    counts = [instructions([program, SCHEMA, MESSAGE, call, str(times), *more], folder) for times in (0, count)]
    return (counts[1] - counts[0]) / count


def build(words):
    subprocess.run(words, check=True)


def main():
    parser = argparse.ArgumentParser(description=__doc__.split("\n", 1)[0])
    parser.add_argument("folder")
    parser.add_argument("--calls", type=int, default=100)
    given = parser.parse_args()
    if not shutil.which("valgrind"):
        sys.exit("bench/library.py: valgrind is not installed (apt-get install valgrind)")
    library = os.path.abspath(f"{given.folder}/libflatc.a")
    with tempfile.TemporaryDirectory() as folder:
        programs = {"flatc": (f"{folder}/ours", [])}
        compiler = shlex.split(os.environ.get("CC") or "cc")
        build([*compiler, "-O2", f"-I{ROOT}/include", f"{HERE}/ours.c", library, "-o", f"{folder}/ours"])
        if shutil.which("flatc") and os.path.exists("/usr/include/flatbuffers/idl.h"):
            build(["flatc", "--binary", "--schema", "-o", folder, SCHEMA])
            compiler = shlex.split(os.environ.get("CXX") or "c++")
            build([*compiler, "-O2", f"{HERE}/theirs.cpp", "-lflatbuffers", "-o", f"{folder}/theirs"])
            programs["libflatbuffers"] = (f"{folder}/theirs", [f"{folder}/monster.bfbs"])
        print(f"| instructions a call | {' | '.join(programs)} |")
        print(f"|---|{'---:|' * len(programs)}")
        for call in CALLS:
            found = [of_one_call(path, call, given.calls, folder, more) for path, more in programs.values()]
            print(f"| `{call}` | {' | '.join(f'{it:,.0f}' for it in found)} |", flush=True)


if __name__ == "__main__":
    main()
