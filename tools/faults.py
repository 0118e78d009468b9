#!/usr/bin/env python3
"""Writes what is made of the pages of faults: docs/FAULTS.md, and the numbers for Python and Rust.

usage: tools/faults.py           writes them
       tools/faults.py --check   says of each whether it is as it would be written, and of each fault of the
                                 specification whether it has a page with its number and name, and no other has one

The pages are in crates/fb_explain_pages/src/fault_pages, the specification's numbers and names in the files
specs/*Table.antt of the crates that refuse. With --check the last line is 'N passed, M failed'.
"""
import glob
import os
import re
import sys
from typing import NamedTuple

ROOT = os.path.dirname(os.path.dirname(os.path.abspath(__file__)))
PAGES = f"{ROOT}/crates/fb_explain_pages/src/fault_pages"
# The sections of docs/FAULTS.md, each with the number that it begins with.
SECTIONS = {
    1: "Schema texts: tokens and grammar",
    10: "Schema texts: declarations",
    30: "Schema texts: sizes",
    40: "Building a buffer",
    50: "Buffers",
    70: "JSON under a schema",
    81: "Printing JSON",
    90: "Comparing schemas",
    110: "Files and JSON texts",
}
# What no call of the library reports: it opens no file and compares no names. Memory that runs out is no fault there.
LEFT_OUT = {"Memory", "WriteFailed", "NameMoved", "FileRead", "FileWrite", "FileTooLong"}
# Of two faults with one name each gets a word more.
PREFIXES = {50: "Buffer", 70: "Json"}
# Limits, which the library's options set.
BY_OPTIONS = {
    62: "Tables are nested deeper than `max_depth`.",
    63: "A buffer has more cells than `max_cells`. What is reached twice counts twice.",
    78: "Tables are nested deeper than `max_depth`.",
    79: "The text has more cells than `max_cells`.",
}
HEAD = """\
# Faults

Each refusal has one of these numbers; `flatc explain NUMBER` prints its page. `--explain` adds where the fault is and
what would be right, in the names of your schema. Numbers that are missing here aren't used, and no number changes its
meaning in a later version.
"""
PYTHON = '''\
"""The numbers of faults. Made by tools/faults.py."""
from enum import IntEnum


class Fault(IntEnum):
    """The number of a fault, for comparisons with `Refused.number`."""

    __module__ = "flatc"

'''


class Page(NamedTuple):
    number: int
    name: str
    text: str

    def section(self):
        return max(it for it in SECTIONS if it <= self.number)

    def sentence(self):
        """What the fault means, as a user of the library reads it."""
        return BY_OPTIONS.get(self.number) or re.match(r".+?\.(?=\s)", self.text, re.S)[0].replace("\n", " ")


def content(path):
    with open(f"{ROOT}/{path}", encoding="utf-8") as it:
        return it.read()


def read_pages():
    """The pages as the code has them, by number."""
    found = []
    for path in sorted(glob.glob(f"{PAGES}/*.rt")):
        for text in re.findall(r'^    "((?:[^"\\]|\\.)*)",?$', content(os.path.relpath(path, ROOT)), re.M | re.S):
            head, _, body = re.sub(r"\\(.)", r"\1", text).partition("\n")
            number, name = head.split()
            found.append(Page(int(number), name, body))
    return sorted(found)


def specified():
    """The numbers of the specification, each with its name."""
    rows = []
    for path in glob.glob("crates/*/specs/*Table.antt", root_dir=ROOT):
        rows += re.findall(r'= \((\d+), codes "(\w+)"', content(path))
    return sorted((int(number), name) for number, name in rows)


def faults_page(pages):
    """docs/FAULTS.md."""
    lines = [HEAD]
    for page in pages:
        if page.number in SECTIONS:
            lines.append(f"## {SECTIONS[page.number]}\n")
        lines.append(f"### {page.number} {page.name}\n\n{page.text}\n")
    return "\n".join(lines)


def library_names(pages):
    """The faults that the library reports, each with a name that no other has."""
    kept = [it for it in pages if it.name not in LEFT_OUT]
    names = [it.name for it in kept]
    return [(it, PREFIXES[it.section()] + it.name if names.count(it.name) > 1 else it.name) for it in kept]


def constant_name(name):
    return re.sub(r"(?<=[a-z0-9])(?=[A-Z])", "_", name).upper()


def python_module(pages):
    rows = [f"    #: {it.sentence()}\n    {constant_name(name)} = {it.number}\n" for it, name in library_names(pages)]
    return PYTHON + "".join(rows)


def rust_module(pages, module):
    """The Rust module, with the rows of its enum made again."""
    rows, section = [], 0
    for page, name in library_names(pages):
        if page.section() != section:
            section = page.section()
            rows.append(f"        // {SECTIONS[section]}\n")
        rows.append(f'        /// {page.sentence()}\n        {name} = {page.number}, "{page.name}";\n')
    return re.sub(r"(?<=\n    \{\n)        // .*?(?=    \}\n\}\n)", lambda it: "".join(rows), module, count=1, flags=re.S)


def made(pages):
    """What is made of the pages, by path."""
    rust = "bindings/rust/flatc/src/fault.rs"
    return {
        "docs/FAULTS.md": faults_page(pages),
        "bindings/python/flatc/_faults.py": python_module(pages),
        rust: rust_module(pages, content(rust)),
    }


def check(pages):
    """How many checks failed, of how many."""
    results = {f"{path} is made of the pages": content(path) == text for path, text in made(pages).items()}
    titles = [(it.number, it.name) for it in pages]
    results["each number has one page"] = len({it.number for it in pages}) == len(pages)
    for number, name in sorted({*titles, *specified()}):
        results[f"{number} {name}"] = (number, name) in titles and (number, name) in specified()
    for name, well in results.items():
        if not well:
            print(f"FAILED: {name}")
    failed = sum(not it for it in results.values())
    print(f"{len(results) - failed} passed, {failed} failed")
    return failed


def main():
    pages = read_pages()
    if sys.argv[1:] == ["--check"]:
        return 1 if check(pages) else 0
    if sys.argv[1:]:
        print(__doc__, file=sys.stderr)
        return 2
    for path, text in made(pages).items():
        with open(f"{ROOT}/{path}", "w", encoding="utf-8") as it:
            it.write(text)
    return 0


if __name__ == "__main__":
    sys.exit(main())
