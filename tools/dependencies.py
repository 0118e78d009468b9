#!/usr/bin/env python3
"""Checks that the libraries that this project is built on are used where they have to be.

usage: tools/dependencies.py

- Each crate in USERS lists its library in crates.txt and names it in its sources.
- The crates in NAMED_BY_INDEX find names and vtables by indexmap: no map or set of the standard library is in their
  sources, and those in INDEXED name the index that finds them.
- Each public enum of faults or breaches derives thiserror's Error, with a sentence for each variant.

Then the check is tried on itself: each library is taken out of each of its crates in turn, a standard map is put into
each crate of the second list, and a derive is taken away. Each of these has to be found. The last line is
'N passed, M failed'.
"""
import glob
import os
import re
import sys

from build import ROOT, read_crates

USERS = {
    "serde_json": ["fb_json", "fb_pieces", "fb_encode"],
    "byteorder": ["fb_read", "fb_tape", "fb_build"],
    "itoa": ["fb_text", "flatc_tool"],
    "simdutf8": ["fb_syntax", "fb_read", "fb_encode"],
    "indexmap": ["fb_index", "fb_resolve", "fb_declare"],
    "clap": ["flatc_cli", "flatc"],
    "thiserror": [
        "fb_heard", "fb_syntax", "fb_layout", "fb_declare", "fb_value", "fb_json", "fb_build", "fb_text", "fb_encode",
        "fb_conform", "fb_faults",
    ],
}
NAMED_BY_INDEX = [
    "fb_index", "fb_schema", "fb_resolve", "fb_declare", "fb_layout", "fb_tape", "fb_build", "fb_json",
]
# Each with what finds its names or vtables.
INDEXED = {"fb_schema": "DigestIndex", "fb_tape": "DigestIndex", "fb_resolve": "IndexSet"}
STANDARD_MAP = re.compile(r"\b(HashMap|HashSet|BTreeMap|BTreeSet)\b|\bstd::collections\b")
FAULTS = re.compile(r"((?:#\[[^\n]*\]\n)*)pub enum (\w*(?:Fault|Breach)) \{\n(.*?)\n\}", re.S)


def code_of(text):
    """A source without its comments."""
    return re.sub(r"//[^\n]*", "", text)


def sources_of(name):
    paths = sorted(glob.glob(f"{ROOT}/crates/{name}/src/**/*.rt", recursive=True))
    texts = {}
    for path in paths:
        with open(path, encoding="utf-8") as it:
            texts[os.path.relpath(path, ROOT)] = it.read()
    return texts


def listed_in(crates):
    """The libraries that each crate lists."""
    return {name: line.partition("#")[0].partition(":")[2].split() for name, (line, _) in crates.items()}


def wrong_users(listed, sources):
    """The crates that don't use a library that they have to use."""
    for library, names in USERS.items():
        for name in names:
            if library not in listed[name]:
                yield f"crates.txt: {name} doesn't list {library}"
            if not any(re.search(rf"\b{library}\b", code_of(it)) for it in sources[name].values()):
                yield f"crates/{name}/src: {library} isn't used"


def wrong_maps(sources):
    """The places where a name or vtable could be found by another map."""
    for name in NAMED_BY_INDEX:
        for path, text in sources[name].items():
            found = STANDARD_MAP.search(code_of(text))
            if found:
                yield f"{path}: {found[0]}, where names and vtables are found by indexmap"
    for name, index in INDEXED.items():
        if not any(re.search(rf"\b{index}\b", code_of(it)) for it in sources[name].values()):
            yield f"crates/{name}/src: {index} isn't used"


def wrong_faults(sources):
    """The faults that don't derive thiserror's Error, or lack a sentence."""
    for texts in sources.values():
        for path, text in texts.items():
            for attributes, name, body in FAULTS.findall(text):
                variants = len(re.findall(r"^    \w+(?:\(.*\))?,", body, re.M))
                sentences = len(re.findall(r"#\[error\(", body))
                if not re.search(r"derive\([^)]*\bError\b", attributes) or sentences < variants:
                    yield f"{path}: {name} has {sentences} sentences of thiserror for {variants} variants"


def all_wrong(listed, sources):
    return [*wrong_users(listed, sources), *wrong_maps(sources), *wrong_faults(sources)]


def planted(listed, sources):
    """Changes that have to be found, each with its name."""
    for library, names in USERS.items():
        for name in names:
            left = {it: [other for other in listed[it] if (it, other) != (name, library)] for it in listed}
            yield f"{name} without {library}", left, sources
    for name in NAMED_BY_INDEX:
        path = next(iter(sources[name]))
        text = f"use std::collections::HashMap;\n{sources[name][path]}"
        yield f"{name} with a HashMap", listed, {**sources, name: {**sources[name], path: text}}
    for name in USERS["thiserror"]:
        without = {path: re.sub(r", Error\)\]", ")]", text) for path, text in sources[name].items()}
        yield f"{name} with faults that don't derive Error", listed, {**sources, name: without}


def main():
    crates = read_crates()
    listed, sources = listed_in(crates), {name: sources_of(name) for name in crates}
    passed, failed = 0, 0
    wrong = all_wrong(listed, sources)
    for it in wrong:
        print(it)
    passed, failed = passed + (not wrong), failed + len(wrong)
    for name, other_list, other_sources in planted(listed, sources):
        found = len(all_wrong(other_list, other_sources)) > len(wrong)
        passed, failed = passed + found, failed + (not found)
        if not found:
            print(f"not found: {name}")
    print(f"libraries where they have to be:\n{passed} passed, {failed} failed")
    return int(failed > 0)


if __name__ == "__main__":
    sys.exit(main())
