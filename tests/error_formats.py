#!/usr/bin/env python3
"""What a refusal looks like with each --error-format: every run with --explain that tests/explain.py makes is made with
each format too, and editors and CI services read the lines.

usage: tests/error_formats.py PROGRAM

- The status, standard output and OUT are the same with every format; `line` is what is printed without a flag, and
  `human` what --explain prints.
- Each line of `short` is one that VS Code's $gcc takes, and the matcher in examples/ci; vim (where it is installed)
  fills its list of errors with them.
- Each line of `json` is an object with documented keys, whose places are looked up in the files again.

The last line is 'N passed, M failed'.
"""
import json
import os
import re
import shutil
import subprocess
import sys

import explain
from harness import ROOT, SECONDS, Tests, content, program_of, write

FORMATS = ("line", "human", "short", "json")
# VS Code's $gcc.
GCC = re.compile(r"^(.*?):(\d+):(\d*):?\s+(?:fatal\s+)?(warning|error):\s+(.*)$")
SHORT = re.compile(r"^(.+?):(\d+):(\d+): (error|warning): (.+) \[(\d+) (\w+)\]$")
KEYS = [
    "severity", "number", "name", "message", "file", "line", "column", "end_column", "offset", "path", "type", "slot",
    "type_name", "field_name", "other", "message_index", "rendered",
]
ALWAYS = {"severity", "number", "name", "message", "file"}


def place_in(text, offset):
    """The line and column of an offset, looked up here; a byte order mark is no column."""
    start = text.rfind(b"\n", 0, offset) + 1
    front = text[start:offset]
    if start == 0:
        front = front.removeprefix(b"\xef\xbb\xbf")
    return text.count(b"\n", 0, offset) + 1, len(front.decode(errors="surrogateescape")) + 1


def fault_of(line):
    """The number and name that a line of a refusal begins with, after a file's name or which schema it is of."""
    found = re.match(rb"(?:.*?: )?(\d+) (\w+)", line)
    return (int(found[1]), found[2].decode()) if found else None


class Formats(Tests):
    """Tests that make each run with --explain in every format too."""

    def run(self, words, **more):
        done = super().run(words, **more)
        if "--explain" in words and "env" not in more:
            self.compare(words, done, more)
        return done

    def expect(self, what, words, *given, **more):
        """What a run prints with --explain has its own tests; here the formats are compared."""
        self.run(words, stdout=more["stdout"]) if "stdout" in more else self.run(words)

    def compare(self, words, explained, more):
        plain = [word for word in words if word != "--explain"]
        alone = super().run(plain, **more)
        made = {}
        for form in FORMATS:
            done = super().run([words[0], "--error-format", form, *plain[1:]], **more)
            made[form] = done
            same = (done.returncode, done.stdout) == (alone.returncode, alone.stdout)
            self.tell(f"{form}: {' '.join(words)}", same, f"{done!r}"[:400])
        self.tell(f"line: {' '.join(words)}", made["line"].stderr == alone.stderr, f"{made['line'].stderr!r}"[:400])
        same = made["human"].stderr == explained.stderr
        self.tell(f"human: {' '.join(words)}", same, f"{made['human'].stderr!r}"[:400])
        first = fault_of(alone.stderr) if alone.returncode == 1 else None
        shorts = self.read_short(words, made["short"].stderr)
        findings = self.read_json(words, made["json"].stderr)
        if first:
            self.tell(f"first of short: {words}", shorts[:1] and shorts[0][4:] == first, f"{first}, {shorts[:1]}")
            found = [(it.get("number"), it.get("name")) for it in findings]
            self.tell(f"first of json: {words}", found[:1] == [first], f"{first}, {found}")
            # a breach that an earlier sentence covers has no lines of its own
            shown = "".join(it.get("rendered", "") for it in findings)
            lines = explained.stderr.decode().partition("\n")[2]
            self.tell(f"rendered: {' '.join(words)}", shown == lines, f"{shown!r}, {lines!r}"[:600])
        places = [(it["file"], it.get("line", 1), it.get("column", 1)) for it in findings]
        self.tell(f"short and json: {words}", places == [it[:3] for it in shorts], f"{places}, {shorts}"[:600])

    def read_short(self, words, err):
        """File, line, column, severity, number and name of each line."""
        read = []
        for line in err.decode(errors="surrogateescape").splitlines():
            found, gcc = SHORT.match(line), GCC.match(line)
            same = found and gcc and found[1] == gcc[1] and (found[2], found[3], found[4]) == (gcc[2], gcc[3], gcc[4])
            self.tell(f"a line of short: {' '.join(words)}", same, repr(line)[:300])
            if found:
                read.append((found[1], int(found[2]), int(found[3]), found[4], int(found[6]), found[7]))
        return read

    def read_json(self, words, err):
        """The object of each line, whose keys and places are right."""
        read = []
        for line in err.splitlines():
            try:
                finding = json.loads(line)
            except ValueError:
                self.tell(f"a line of json: {' '.join(words)}", False, repr(line)[:300])
                continue
            keys = list(finding)
            good = keys == [key for key in KEYS if key in finding] and ALWAYS <= set(keys)
            good = good and None not in finding.values() and finding["severity"] in ("error", "warning")
            self.tell(f"keys of json: {' '.join(words)}", good, repr(line)[:300])
            self.look_up(words, finding)
            read.append(finding)
        return read

    def look_up(self, words, finding):
        """The offset of a finding in a text is that of its line and column."""
        if "line" in finding and "offset" in finding and os.path.isfile(finding["file"]):
            where = place_in(content(finding["file"]), finding["offset"])
            good = (finding["line"], finding["column"]) == where and finding.get("end_column", 1 << 30) > where[1]
            self.tell(f"the place of json: {' '.join(words)}", good, f"{finding!r}, {where}"[:400])


BREACHES = (
    b"enum C : byte { Red, Green }\ntable T {\n  hp:int = 100;\n  name:string;\n  c:C;\n  gone:int;\n}\nroot_type T;\n",
    b"enum C : byte { Green, Red }\ntable T {\n  hp:int = 90;\n  name:string (required);\n  c:C;\n}\nroot_type T;\n",
)
# Number, and the line of the new file.
WANTED = {97: 3, 98: 4, 101: 1, 95: 2}


def breaches(tests):
    """Every breach has a line of its own, at its place in the new file."""
    write("old.fbs", BREACHES[0])
    write("new.fbs", BREACHES[1])
    done = Tests.run(tests, ["conform", "--error-format", "short", "old.fbs", "new.fbs"])
    shorts = tests.read_short(["conform"], done.stderr)
    found = {it[4]: (it[0], it[1]) for it in shorts}
    want = {number: ("new.fbs", line) for number, line in WANTED.items()}
    tests.tell("breaches in short", done.returncode == 1 and found == want, f"{found}, not {want}")
    done = Tests.run(tests, ["conform", "--error-format", "json", "old.fbs", "new.fbs"])
    findings = tests.read_json(["conform"], done.stderr)
    found = {it["number"]: (it["file"], it["line"]) for it in findings}
    tests.tell("breaches in json", found == want, f"{found}, not {want}")
    others = {it["number"]: (it["other"]["file"], it["other"]["line"]) for it in findings if "other" in it}
    want = {97: ("old.fbs", 3), 98: ("old.fbs", 4), 101: ("old.fbs", 1), 95: ("old.fbs", 6)}
    tests.tell("old places in json", others == want, f"{others}, not {want}")


def several(tests):
    """Each finding of a line over several schemas is at its own place: of a chain in the step's new version."""
    write("v1.fbs", BREACHES[0])
    write("v2.fbs", BREACHES[0])
    write("v3.fbs", BREACHES[1])
    write("bad.fbs", b"table T { a:ubyte = 300; } root_type T;")
    bad = {12: ("bad.fbs", 1)}
    step = {number: ("v3.fbs", line) for number, line in WANTED.items()}
    for words, want in (
        (["conform", "--chain", "v1.fbs", "v2.fbs", "v3.fbs", "bad.fbs"], {**step, **bad}),
        (["check", "--schemas", "v1.fbs", "bad.fbs", "v3.fbs"], bad),
    ):
        done = Tests.run(tests, [words[0], "--error-format", "short", *words[1:]])
        found = {it[4]: (it[0], it[1]) for it in tests.read_short(words, done.stderr)}
        tests.tell(f"{words[1]} in short", done.returncode == 1 and found == want, f"{found}, not {want}")
        done = Tests.run(tests, [words[0], "--error-format", "json", *words[1:]])
        found = {it["number"]: (it["file"], it["line"]) for it in tests.read_json(words, done.stderr)}
        tests.tell(f"{words[1]} in json", done.returncode == 1 and found == want, f"{found}, not {want}")


def editors(tests):
    """vim's own errorformat, and the matcher for GitHub."""
    write("old.fbs", BREACHES[0])
    write("new.fbs", BREACHES[1])
    err = Tests.run(tests, ["conform", "--error-format", "short", "old.fbs", "new.fbs"]).stderr
    with open(f"{ROOT}/examples/ci/flatc-matcher.json", encoding="utf-8") as it:
        pattern = json.load(it)["problemMatcher"][0]["pattern"][0]
    matched = [re.match(pattern["regexp"], line) for line in err.decode().splitlines()]
    found = {int(it[pattern["code"]].split()[0]): int(it[pattern["line"]]) for it in matched if it}
    tests.tell("the matcher for GitHub", all(matched) and found == WANTED, f"{found}")
    vim = shutil.which("vim")
    if not vim:
        print("error_formats: vim: skipped; apt-get install vim")
        return
    write("errors.txt", err)
    dump = "call writefile([json_encode(map(getqflist(), {_, it -> [bufname(it.bufnr), it.lnum, it.col]}))], 'list.json')"
    words = [vim, "-N", "-u", "NONE", "-i", "NONE", "-es", "-c", "cfile errors.txt", "-c", dump, "-c", "qa!"]
    subprocess.run(words, stdin=subprocess.DEVNULL, timeout=SECONDS, check=False, env={**os.environ, "TERM": "dumb"})
    listed = json.loads(content("list.json") or b"[]")
    want = [[it[0], it[1], it[2]] for it in tests.read_short(["conform"], err)]
    tests.tell("vim's list of errors", listed == want, f"{listed}, not {want}")


def usage(tests):
    """Words that are no format, and two that contradict each other; the default from the environment."""
    write("s.fbs", b"table T { a:ubyte = 300; } root_type T;")
    for words in (["--error-format", "xml"], ["--error-format", "short", "--terse"], ["--error-format=json", "--explain"]):
        done = Tests.run(tests, ["check", *words, "s.fbs"])
        tests.tell(f"usage: {words}", done.returncode == 2 and not done.stdout, f"{done!r}")
    line = b"12 BadDefault at 20\n"
    short = b"s.fbs:1:21: error: "
    for value, want in (("line", line), ("short", short), ("human", line + b"s.fbs:1:21: "), ("json", b'{"severity":"error"')):
        done = Tests.run(tests, ["check", "s.fbs"], env={**os.environ, "FLATC_ERROR_FORMAT": value})
        tests.tell(f"FLATC_ERROR_FORMAT={value}", done.returncode == 1 and done.stderr.startswith(want), f"{done!r}")
        for flag in ("--error-format", "--terse"):
            more = [flag, "line"] if flag == "--error-format" else [flag]
            done = Tests.run(tests, ["check", *more, "s.fbs"], env={**os.environ, "FLATC_ERROR_FORMAT": value})
            tests.tell(f"{more} before FLATC_ERROR_FORMAT={value}", done.stderr == line, f"{done!r}")
    done = Tests.run(tests, ["check", "s.fbs"], env={**os.environ, "FLATC_ERROR_FORMAT": "xml"})
    rows = done.stderr.splitlines(keepends=True)
    good = done.returncode == 1 and len(rows) == 2 and line in rows and b"FLATC_ERROR_FORMAT" in b"".join(rows)
    tests.tell("FLATC_ERROR_FORMAT that is no format", good, f"{done!r}")


def names(tests):
    """A file's name has its control characters escaped, and no other byte changed."""
    text = b"table T { a:ubyte = 300; } root_type T;"
    for name, want in (("a\nb.fbs", b"a\\u{a}b.fbs"), ("\x1b[31m.fbs", b"\\u{1b}[31m.fbs"), ("ä b.fbs", "ä b.fbs".encode())):
        write(name, text)
        for form in ("human", "short"):
            err = Tests.run(tests, ["check", "--error-format", form, name]).stderr
            good = want + b":1:21: " in err and all(byte >= 32 or byte == 10 for byte in err)
            tests.tell(f"{form} of {name!r}", good, f"{err!r}")
        err = Tests.run(tests, ["check", "--error-format", "json", name]).stderr
        finding = json.loads(err.splitlines()[0])
        tests.tell(f"json of {name!r}", finding["file"].encode() in (name.encode(), want), f"{err!r}")


def streams(tests):
    """The place of a refused line is the stream's own."""
    write("s.fbs", b"table T { a:ubyte; } root_type T;")
    write("many.jsonl", b'{"a":1}\n\n{"a":300}\n{"a":2}\n{"b":2}\n')
    words = ["binary", "--lines", "--keep-going", "--error-format"]
    done = Tests.run(tests, [*words, "short", "s.fbs", "many.jsonl", "out.bins"])
    found = [it[:3] + it[4:5] for it in tests.read_short(words, done.stderr)]
    want = [("many.jsonl", 3, 6, 72), ("many.jsonl", 5, 2, 74)]
    tests.tell("lines of a stream in short", done.returncode == 1 and found == want, f"{found}, not {want}")
    done = Tests.run(tests, [*words, "json", "s.fbs", "many.jsonl", "out.bins"])
    found = [(it["line"], it["column"], it.get("message_index")) for it in tests.read_json(words, done.stderr)]
    tests.tell("lines of a stream in json", found == [(3, 6, 3), (5, 2, 5)], f"{found}")


PARTS = [
    explain.schemas, explain.ids, explain.sizes, explain.unsupported, explain.texts, explain.values, explain.flags,
    explain.kinds, explain.changes, explain.buffers, explain.limits, explain.unnamed, explain.files,
    breaches, several, editors, usage, names, streams,
]

if __name__ == "__main__":
    sys.exit(Formats("error_formats", program_of(sys.argv, __doc__)).main(PARTS))
