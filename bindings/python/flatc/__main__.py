"""The simplest uses of the command. Exit status: 0, 1 for a refusal, 2 for a usage error."""
from __future__ import annotations

import argparse
import os
import sys
from typing import Dict, List, Optional, Sequence

from flatc import Refused, Schema, __version__

STANDARD = "-"
OPTIONS = {
    "unknown_json": "ignores unknown JSON fields",
    "raw_binary": "skips the file identifier check",
    "defaults_json": "includes fields with default values",
    "compact": "leaves out blanks and line feeds",
    "size_prefixed": "the buffer begins with its length as 32 bits",
}


class Failure(Exception):
    """The line of a refusal or of a file's fault, and its explanation."""

    def __init__(self, line: str, explanation: str) -> None:
        super().__init__(line)
        self.line = line
        self.explanation = explanation


def read(path: str) -> bytes:
    try:
        if path == STANDARD:
            return sys.stdin.buffer.read()
        with open(path, "rb") as file:
            return file.read()
    except OSError as problem:
        raise Failure("110 FileRead", f"{path}: {problem.strerror}\n") from problem


def write(path: str, data: bytes) -> None:
    """Writes a file or to standard output, past the buffer of sys.stdout: nothing is left to be written at exit."""
    is_standard = path == STANDARD
    try:
        with open(sys.stdout.fileno() if is_standard else path, "wb", closefd=not is_standard) as file:
            file.write(data)
    except OSError as problem:
        raise Failure("111 FileWrite", f"{path}: {problem.strerror}\n") from problem


def keep_inputs(out: str, *inputs: str) -> None:
    """Refuses an OUT that is an input, or that exists and looks like one."""
    if not os.path.exists(out):
        return
    if out.endswith((".json", ".fbs")) or any(os.path.exists(it) and os.path.samefile(it, out) for it in inputs):
        raise Failure("111 FileWrite", f"{out}: would be overwritten, and is or looks like an input\n")


def line_of(refused: Refused) -> str:
    """The line of a refusal, as the command prints it."""
    places = {" at": refused.offset, " in type": refused.type_id, " slot": refused.slot}
    where = "".join(f"{word} {place}" for word, place in places.items() if place is not None)
    return f"{refused.number} {refused.name}{where}"


def options_of(arguments: argparse.Namespace) -> Dict[str, bool]:
    return {name: getattr(arguments, name) for name in OPTIONS if hasattr(arguments, name)}


def run_binary(arguments: argparse.Namespace) -> None:
    buffer = Schema(read(arguments.schema)).encode(read(arguments.json), **options_of(arguments))
    keep_inputs(arguments.out, arguments.schema, arguments.json)
    write(arguments.out, buffer)


def run_json(arguments: argparse.Namespace) -> None:
    text = Schema(read(arguments.schema)).decode(read(arguments.bin), **options_of(arguments))
    write(STANDARD, text.encode())


def run_check(arguments: argparse.Namespace) -> None:
    schema = Schema(read(arguments.schema))
    if arguments.bin is not None:
        schema.verify(read(arguments.bin), **options_of(arguments))
    write(STANDARD, b"ok\n")


def run_conform(arguments: argparse.Namespace) -> None:
    schemas = {"old": read(arguments.old), "new": read(arguments.new)}
    parsed = {}
    for name, text in schemas.items():
        try:
            parsed[name] = Schema(text)
        except Refused as refused:
            raise Failure(f"{name}: {line_of(refused)}", refused.explain()) from refused
    parsed["old"].conform(parsed["new"])
    write(STANDARD, b"conforms\n")


COMMANDS = {
    "binary": (run_binary, "converts JSON to a buffer", "SCHEMA JSON OUT", "unknown_json size_prefixed"),
    "json": (run_json, "prints a buffer as JSON", "SCHEMA BIN", "raw_binary defaults_json compact size_prefixed"),
    "check": (run_check, "checks a schema, or a buffer under it", "SCHEMA [BIN]", "raw_binary size_prefixed"),
    "conform": (run_conform, "checks that a new schema reads data of the old one", "OLD NEW", ""),
}


def make_parser() -> argparse.ArgumentParser:
    parser = argparse.ArgumentParser("python -m flatc", description=__doc__)
    parser.add_argument("--version", action="version", version=f"flatc {__version__}")
    commands = parser.add_subparsers(metavar="COMMAND", required=True)
    for name, (run, what, files, options) in COMMANDS.items():
        command = commands.add_parser(name, help=what, description=f"{what}; - is standard input or output")
        for file in files.split():
            bare = file.strip("[]")
            command.add_argument(bare.lower(), metavar=bare, nargs=None if bare == file else "?")
        for option in options.split():
            command.add_argument(f"--{option.replace('_', '-')}", action="store_true", help=OPTIONS[option])
        command.add_argument("--explain", action="store_true", help="explains a refusal, as at a terminal")
        command.set_defaults(run=run, inputs=[it.strip("[]").lower() for it in files.split() if it != "OUT"])
    return parser


def main(words: Optional[Sequence[str]] = None) -> int:
    parser = make_parser()
    arguments = parser.parse_args(words)
    inputs: List[str] = [getattr(arguments, name) for name in arguments.inputs]
    if inputs.count(STANDARD) > 1:
        parser.error("only one input may be -")
    try:
        arguments.run(arguments)
        return 0
    except Failure as failure:
        line, explanation = failure.line, failure.explanation
    except Refused as refused:
        line, explanation = line_of(refused), refused.explain()
    print(line, file=sys.stderr)
    if arguments.explain or sys.stderr.isatty():
        print(explanation, end="", file=sys.stderr)
    return 1


if __name__ == "__main__":
    sys.exit(main())
