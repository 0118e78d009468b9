#!/usr/bin/env python3
"""README, the pages in docs/ and the crates' READMEs: their examples, their tables of changes and flags, their links, and
their length.

usage: tests/pages.py PROGRAM

The last line is 'N passed, M failed'.
"""
import glob
import os
import re
import sys

from harness import ROOT, Tests, content, program_of, write

PAGES = ["README.md", "CONTRIBUTING.md", "SECURITY.md", "CHANGELOG.md", *sorted(glob.glob("docs/*.md", root_dir=ROOT))]
# Those whose lines with a `$` are run, and how many there are at least.
SHOWN = {"README.md": 6, "docs/COMMAND.md": 3, "docs/EVOLUTION.md": 4}
README_WORDS = 1400
CRATE_WORDS = 400
# Where the examples of the crates' READMEs are run.
CRATE_EXAMPLES = "crates/test_calls/src/tests/examples.rt"
COMMANDS = ("binary", "json", "check", "conform", "inspect", "describe", "explain")


def page(name):
    return content(f"{ROOT}/{name}").decode()


def examples(tests):
    """The lines with a `$` of a page print what it shows."""
    os.symlink(f"{ROOT}/examples", "examples")
    for name, most in SHOWN.items():
        lines = 0
        for block in re.findall(r"```\n(\$ .*?)```", page(name), re.S):
            for piece in block.split("$ flatc ")[1:]:
                line, _, out = piece.partition("\n")
                done = tests.run(line.split())
                tests.tell(f"{name}: flatc {line}", (done.stdout + done.stderr).decode() == out, f"{done}")
                lines += 1
        tests.tell(f"{name}'s lines", lines >= most, f"{lines}, where {most} were expected")


def first_example(tests):
    """README's schema and JSON are those in examples/, and its contract is that of the source."""
    text = page("README.md")
    for kind, name in (("fbs", "orc.fbs"), ("json", "orc.json")):
        block = re.search(f"```{kind}\n(.*?)```", text, re.S)[1]
        tests.tell(f"README's {name}", block.encode() == content(f"{ROOT}/examples/{name}"))
    function = re.search(r"```rust\n(.*?)```", text, re.S)[1]
    path = re.search(r"\]\((crates/\S+\.rt)\)", text)[1]
    tests.tell("README's contract", function in page(path), path)
    words = len(text.split())
    tests.tell("README's words", words <= README_WORDS, f"{words}")


def crate_pages(tests):
    """A crate's README is short, and its examples are run as tests."""
    run = "\n".join(line.removeprefix("    ") for line in page(CRATE_EXAMPLES).splitlines())
    shown = 0
    for name in sorted(glob.glob("crates/*/README.md", root_dir=ROOT)):
        prose = re.sub(r"```.*?```", "", page(name), flags=re.S)
        words = [word for word in prose.split() if re.search(r"\w", word)]
        tests.tell(f"{name}'s words", len(words) < CRATE_WORDS, f"{len(words)}")
        for block in re.findall(r"```rust\n(.*?)```", page(name), re.S):
            tests.tell(f"an example of {name}", f"{{\n{block}" in run, f"isn't in {CRATE_EXAMPLES}:\n{block}")
            shown += 1
    tests.tell("examples of crates", shown >= 6, f"{shown}")


def changes(tests):
    """Each row of the table of changes has the verdicts that the command gives."""
    rows = re.findall(r"^\| ([^|]+) \| `([^|]+)` \| `([^|]+)` \| ([^|]+) \| ([^|]+) \|$", page("docs/EVOLUTION.md"), re.M)
    tests.tell("the table of changes", len(rows) >= 20, f"{len(rows)} rows")
    for what, before, after, plain, named in rows:
        write("old.fbs", f"{before} root_type T;".encode())
        write("new.fbs", f"{after} root_type T;".encode())
        for flags, verdict in (([], plain), (["--names"], named)):
            done = tests.run(["conform", *flags, "old.fbs", "new.fbs"])
            said = (done.stdout + done.stderr).decode()
            tests.tell(f"{what} {flags}", said == f"{verdict}\n" or said.startswith(f"{verdict} "), f"{said!r}")


def flags(tests):
    """The page of the command has each flag that --help has, and no other."""
    wanted = set()
    for command in COMMANDS:
        said = tests.run([command, "--help"]).stdout.decode()
        wanted |= set(re.findall(r"(?<![\w-])--[a-z][a-z-]+", said))
    wanted |= set(re.findall(r"(?<![\w-])--[a-z][a-z-]+", tests.run(["--help"]).stdout.decode()))
    table = page("docs/COMMAND.md").partition("## Flags")[2].partition("\n- ")[0]
    told = set(re.findall(r"--[a-z][a-z-]+", table))
    tests.tell("the flags of docs/COMMAND.md", told == wanted, f"{sorted(told ^ wanted)}")


def recipes(tests):
    """What is done in place of what isn't supported."""
    # 0.5 as a float, and its bits as an int
    buffer = bytes.fromhex("0c000000 0000 0600 0800 0400 06000000 0000003f")
    write("half.bin", buffer)
    write("bits.fbs", b"table T { a:int; } root_type T;")
    tests.expect("a float is read as an int", ["json", "--compact", "bits.fbs", "half.bin"], 0, b'{"a":1056964608}')
    write("roots.fbs", b"table A { a:int; } table B { b:int; } root_type A; root_type B;")
    write("b.json", b'{"b":1}')
    tests.expect("the last root counts", ["binary", "roots.fbs", "b.json", "/dev/null"], 0)


def anchors(text):
    """The anchors of a page's headings, as its readers' programs make them."""
    heads = re.findall(r"^#+ (.*)$", text, re.M)
    return {re.sub(r"[^\w -]", "", it.lower()).replace(" ", "-") for it in heads}


def links(tests):
    """Each link leads to a file, and to a heading in it."""
    for name in PAGES:
        text = re.sub(r"```.*?```", "", page(name), flags=re.S)
        for target in re.findall(r"\]\(([^)\s]+)\)", text):
            if re.match(r"https?:", target):
                continue
            path, _, anchor = target.partition("#")
            at = os.path.normpath(os.path.join(ROOT, os.path.dirname(name), path)) if path else f"{ROOT}/{name}"
            good = os.path.exists(at) and (not anchor or anchor in anchors(content(at).decode()))
            tests.tell(f"{name}: the link {target}", good, "leads nowhere")


def main():
    tests = Tests("pages", program_of(sys.argv, __doc__))
    return tests.main([first_example, examples, crate_pages, changes, flags, recipes, links])


if __name__ == "__main__":
    sys.exit(main())
