#!/usr/bin/env python3
"""The name by which the program is called, in its usage, its help and its hints.

usage: tests/program_name.py PROGRAM

The last line is 'N passed, M failed'.
"""
import os
import subprocess
import sys

from harness import Tests, program_of

# Words, the status, and lines that are printed then, of a program called NAME.
LINES = [
    (["--help"], 0, ["Usage: NAME <COMMAND>"]),
    (["help"], 0, ["Usage: NAME <COMMAND>"]),
    (["binary", "--help"], 0, ["Usage: NAME binary [OPTIONS] <SCHEMA> <JSON> <OUT>",
                               "       NAME binary [OPTIONS] --out-dir <DIR> <SCHEMA> <JSON>...",
                               "       NAME binary [OPTIONS] --lines <SCHEMA> <JSON> <OUT>"]),
    (["conform", "--help"], 0, ["Usage: NAME conform [OPTIONS] <OLD> <NEW>"]),
    (["explain", "--help"], 0, ["Usage: NAME explain [NUMBER]"]),
    (["what"], 2, ["Usage: NAME <COMMAND>"]),
    (["conform", "s"], 2, ["Usage: NAME conform [OPTIONS] <OLD> <NEW>"]),
    (["inspect", "s"], 2, ["       NAME inspect [OPTIONS] --header <BIN>"]),
    (["check", "--lines", "s"], 2, ["       NAME check [OPTIONS] --lines <SCHEMA> <BIN>"]),
    (["json", "-o", ".", "s", "b", "b"], 2, ["Usage: NAME json [OPTIONS] <SCHEMA> <BIN>"]),
    (["explain", "300"], 2, ["Usage: NAME explain [NUMBER]"]),
    ([b"\xff"], 2, ["Usage: NAME <COMMAND>"]),
    (["-b", "s"], 2, ["hint: use: NAME binary SCHEMA JSON OUT"]),
    (["--cpp", "s"], 2, ["hint: this program converts and checks; for generated code use Google's flatc"]),
]
# What the program is called, and the name that it says.
NAMES = [
    ("flatc", "flatc"),
    ("flatc-proved", "flatc-proved"),
    ("/usr/bin/flatc-proved", "flatc-proved"),
    ("../a folder/my flatc", "my flatc"),
    ("/opt/flatc é", "flatc é"),
    ("", "flatc"),
    ("/usr/bin/", "flatc"),
    ("a\nb", "flatc"),
    ("\x1b[31m", "flatc"),
    ("x" * 2000, "flatc"),
]


def run(program, name, words):
    """The status of a run under a name, and what it printed: where it failed, on standard error alone."""
    done = subprocess.run([name, *words], executable=program, capture_output=True, check=False)
    printed, other = (done.stderr, done.stdout) if done.returncode else (done.stdout, done.stderr)
    return done.returncode, printed.decode() + ("on the other stream: " + other.decode() if other else "")


def renamed(tests):
    for name, said in NAMES:
        for words, status, lines in LINES:
            have, text = run(tests.program, name, words)
            missing = [it for it in lines if it.replace("NAME", said) not in text.splitlines()]
            tests.tell(f"{words} as {name!r}", have == status and not missing, f"status {have}, {missing}: {text}")


def alike(tests):
    """Nothing but the name differs."""
    for words, _, _ in LINES:
        _, usual = run(tests.program, "flatc", words)
        _, other = run(tests.program, "OTHER", words)
        tests.tell(f"{words} has the name", other != usual, other)
        tests.tell(f"{words} is the same text", other.replace("OTHER", "flatc") == usual, other)


def linked(tests):
    os.symlink(tests.program, "flatc-proved")
    done = subprocess.run(["./flatc-proved", "--help"], capture_output=True, text=True)
    tests.tell("by a link", "\nUsage: flatc-proved <COMMAND>\n" in done.stdout, done.stdout)


def main():
    tests = Tests("program name", program_of(sys.argv, __doc__))
    return tests.main((renamed, alike, linked))


if __name__ == "__main__":
    sys.exit(main())
