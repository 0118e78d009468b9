#!/usr/bin/env python3
"""Brings the version, which is the first one in CHANGELOG.md, to the files that need a copy of it.

usage: tools/version.py           writes it to each of them
       tools/version.py --check   says of each whether it has it
"""
import os
import re
import sys

ROOT = os.path.dirname(os.path.dirname(os.path.abspath(__file__)))


def version():
    with open(f"{ROOT}/CHANGELOG.md", encoding="utf-8") as it:
        return re.search(r"^## (\d+\.\d+\.\d+)$", it.read(), re.M)[1]


def copies(said):
    """The files that have a copy, each with what stands before and behind it, and the copy."""
    major, minor, patch = (int(it) for it in said.split("."))
    number = f"0x{major:02x}_{minor:02x}_{patch:02x}"
    schemas, header, crates = "crates/flatc_c/src/schemas.rt", "include/flatc.h", "bindings/rust/Cargo"
    return [
        ("crates/flatc_cli/src/commands.rt", r'(pub const VERSION: &str = ")[^"]*(")', said),
        (schemas, r"(fn flatc_version\(\) -> u32\n    ensures \{ result ≡ )\d+( \})", f"{int(number, 16)}"),
        (schemas, r"(fn flatc_version\(\)[^{]*\{[^}]*\}\n\{\n    )\w+(\n)", number),
        (header, r"(#define FLATC_VERSION_MAJOR )\d+(\n)", f"{major}"),
        (header, r"(#define FLATC_VERSION_MINOR )\d+(\n)", f"{minor}"),
        (header, r"(#define FLATC_VERSION_PATCH )\d+(\n)", f"{patch}"),
        (header, r'(#define FLATC_VERSION_STRING ")[^"]*(")', said),
        (f"{crates}.toml", r'(\[workspace\.package\]\nversion = ")[^"]*(")', said),
        (f"{crates}.toml", r'(flatc-sys = \{ path = "flatc-sys", version = ")[^"]*(")', said),
        (f"{crates}.lock", r'(name = "flatc"\nversion = ")[^"]*(")', said),
        (f"{crates}.lock", r'(name = "flatc-sys"\nversion = ")[^"]*(")', said),
        ("bindings/rust/flatc-sys/build.rs", r'(const PACKAGE: &str = "flatc >= )[^"]*(")', f"{major}.{minor}"),
        ("bindings/rust/README.md", r"(The build needs libflatc )\S+( or newer)", f"{major}.{minor}"),
        ("bindings/python/flatc/_version.py", r'(__version__ = ")[^"]*(")', said),
    ]


def main():
    checks = "--check" in sys.argv[1:]
    passed, failed = 0, 0
    for path, pattern, copy in copies(version()):
        with open(f"{ROOT}/{path}", encoding="utf-8") as it:
            text = it.read()
        new, count = re.subn(pattern, rf"\g<1>{copy}\g<2>", text)
        well = count == 1 and (new == text or not checks)
        passed, failed = passed + well, failed + (not well)
        if not well:
            print(f"{path}: hasn't the version {version()}, or has it {count} times")
        elif new != text:
            with open(f"{ROOT}/{path}", "w", encoding="utf-8") as it:
                it.write(new)
    print(f"copies of the version {version()}:\n{passed} passed, {failed} failed")
    return int(failed > 0)


if __name__ == "__main__":
    sys.exit(main())
