"""How much memory the way to a buffer takes: beside the JSON text and the buffer, and beside a parse at once.

usage: tests/memory.py PROGRAM PARSER

PARSER is built of crates/bench_json_parse. The last line is 'N passed, M failed'.
"""
import os
import sys

from harness import ROOT, Tests, program_of

sys.path.append(f"{ROOT}/bench")
from bench import Runner, write_documents

# How many times as much memory as the buffer the tape of what a text means takes.
TAPES = 2
# What doesn't grow with the text, in KiB: the tree of the piece that is read, mostly.
PIECE = 512
# How many times the memory of a parse and of the buffer the way to it may take. The buffer of the first is six times as
# long as its JSON text; those of the others are shorter.
MOST = 1.2
BESIDE_A_PARSE = ("wide and sparse", "small tables", "integers")
RUNS = 3


def kibibytes(path):
    return os.path.getsize(path) // 1024


class Peaks:
    """The most memory that programs have in use, in KiB."""

    def __init__(self, program):
        self.runner = Runner(".")
        self.program = program

    def of(self, *words):
        return int(self.runner.run(words)[-1])

    def of_buffers(self, schema, text, out):
        """Those of some runs."""
        return [self.of(self.program, "binary", schema, text, out) for _ in range(RUNS)]


def all_documents(parser):
    def tried(tests):
        peaks = Peaks(tests.program)
        with open("none.json", "w", encoding="ascii") as it:
            it.write("{}")
        for name, at in write_documents(".", ""):
            schema, json, out = f"{at}/data.fbs", f"{at}/data.json", f"{at}/data.bin"
            nothing = max(peaks.of_buffers(schema, "none.json", out))
            ours = min(peaks.of_buffers(schema, json, out))
            text, buffer = kibibytes(json), kibibytes(out)
            told = f"{ours} KiB, {nothing} KiB for no member, {text} KiB of text, {buffer} KiB for the buffer"
            most = nothing + text + TAPES * buffer + PIECE
            tests.tell(f"the memory of {name} beside the text, with its tape", ours <= most, told)
            if name in BESIDE_A_PARSE:
                alone = peaks.of(parser, json)
                told = f"{ours} KiB, {alone} KiB for a parse, {buffer} KiB for the buffer"
                tests.tell(f"the memory of {name} beside a parse", ours <= MOST * (alone + buffer), told)

    return tried


def main():
    tests = Tests("memory", program_of(sys.argv[:2], __doc__))
    return tests.main([all_documents(os.path.abspath(sys.argv[2]))])


if __name__ == "__main__":
    sys.exit(main())
