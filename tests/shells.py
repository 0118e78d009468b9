#!/usr/bin/env python3
"""The man page and the completions of the built program: that they have all commands, flags and refusals, also one that
is new; what mandoc says of the page; and lines typed into bash, zsh and fish, with what each becomes.

usage: tests/shells.py PROGRAM

What isn't installed is skipped. The last line is 'N passed, M failed'.
"""
import os
import re
import shutil
import subprocess
import sys
import time

from harness import ROOT, Tests, content, program_of, write

# The tests' own folder comes last: it has an inspect.py, and libraries mean Python's.
sys.path += [f"{ROOT}/tools", "/usr/lib/python3/dist-packages", sys.path.pop(0)]

from command_help import Described  # noqa: E402

try:
    import pexpect
except ImportError:
    pexpect = None

FILES = ("monster.fbs", "monster.json", "monster.bin", "two words.fbs", "notes.txt")
# What is typed before a tab, and the line after it.
LINES = [
    ("flatc bi", "flatc binary "),
    ("flatc --ver", "flatc --version "),
    ("flatc help con", "flatc help conform "),
    ("flatc binary --unk", "flatc binary --unknown-json "),
    ("flatc json --def", "flatc json --defaults-json "),
    ("flatc conform --n", "flatc conform --names "),
    ("flatc check mon", "flatc check monster.fbs "),
    ("flatc check --terse mon", "flatc check --terse monster.fbs "),
    ("flatc check tw", "flatc check two\\ words.fbs "),
    ("flatc check not", "flatc check notes.txt "),
    ("flatc check monster.fbs mon", "flatc check monster.fbs monster."),
    ("flatc json monster.fbs monster.b", "flatc json monster.fbs monster.bin "),
    ("flatc json two\\ words.fbs monster.b", "flatc json two\\ words.fbs monster.bin "),
    ("flatc conform monster.fbs mon", "flatc conform monster.fbs monster.fbs "),
    ("flatc conform - tw", "flatc conform - two\\ words.fbs "),
    ("flatc inspect mon", "flatc inspect monster.fbs "),
    ("flatc inspect --header mon", "flatc inspect --header monster."),
    ("flatc binary -o out", "flatc binary -o outdir/"),
    ("flatc binary --out-dir out", "flatc binary --out-dir outdir/"),
    ("flatc binary -o outdir mon", "flatc binary -o outdir monster.fbs "),
    ("flatc check --error-format sh", "flatc check --error-format short "),
    ("flatc conform --error-format h", "flatc conform --error-format human "),
    ("flatc explain 7", "flatc explain 7"),
    ("flatc explain 11", "flatc explain 11"),
]
# In fish only what begins with the typed word can take its place.
NAMED = [("flatc explain UnknownN", "flatc explain 73 "), ("flatc explain enumch", "flatc explain 101 ")]
BASH_COMPLETION = "/usr/share/bash-completion/bash_completion"
STARTS = {
    "bash": (
        ["--norc", "--noprofile", "-i"],
        "PS1='% '; bind 'set bell-style none'; bind 'set show-all-if-ambiguous on'; . "
        f"{BASH_COMPLETION}; . made/flatc.bash; bind -x '\"\\C-t\": printf %s \"$READLINE_LINE\" > .line'",
    ),
    "zsh": (
        ["-f", "-i"],
        "PS1='% '; unsetopt beep list_beep; fpath=($PWD/made $fpath); autoload -Uz compinit; compinit -u -D; "
        "t() { print -rn -- \"$BUFFER\" > .line }; zle -N t; bindkey '^T' t",
    ),
    "fish": (
        ["--no-config", "-i"],
        "function fish_prompt; echo '% '; end; . made/flatc.fish; bind \\ct 'commandline | string collect > .line'",
    ),
}
NAMES = {"bash": "flatc.bash", "zsh": "_flatc", "fish": "flatc.fish"}


def skipped(what, why):
    print(f"shells: {what}: skipped; {why}", flush=True)


def written(program, name="flatc"):
    """The man page and the completions, by the names of their files."""
    tools = {f"{name}.1": ["man_page.py", program, name]}
    tools |= {NAMES[it].replace("flatc", name): ["completions.py", program, it, name] for it in NAMES}
    env = {**os.environ, "SOURCE_DATE_EPOCH": "1700000000"}
    texts = {}
    for path, (tool, *words) in tools.items():
        done = subprocess.run([sys.executable, f"{ROOT}/tools/{tool}", *words], capture_output=True, text=True, env=env)
        texts[path] = done.stdout if done.returncode == 0 else None
    return texts


def stands_in(program, old, new):
    """A program that prints what this one prints, with a text in place of another."""
    script = f"#!/bin/sh\n'{program}' \"$@\" | sed 's#{old}#{new}#'\n"
    write("stand_in", script.encode())
    os.chmod("stand_in", 0o755)
    return os.path.abspath("stand_in")


def all_there(tests):
    """Each command, flag and refusal is in the page and in each completion."""
    described = Described.of(tests.program)
    words = {name for name, _ in described.top.commands if name != "help"}
    words |= {it.long[2:] for found in described.commands for it in found.options if it.long != "--help"}
    words |= {number for number, _, _ in described.refusals} | {name for _, name, _ in described.refusals}
    tests.tell("commands, flags and refusals are read", len(words) > 120, f"{len(words)}")
    for path, text in written(tests.program).items():
        have = set(re.findall(r"\w[\w-]*", (text or "").replace("\\-", "-").replace("\\fB", " ").replace("\\t", " ")))
        tests.tell(f"what {path} has", words <= have, f"{sorted(words - have)}")
        tests.tell(f"nothing is left open in {path}", not re.search(r"@[A-Z]+@", text or "@NAME@"), path)


def page_parts(tests):
    """Each command's part of the man page has its flags and arguments."""
    page = written(tests.program)["flatc.1"].replace("\\-", "-")
    parts = dict(re.findall(r"^\.SS (\w+)\n(.*?)(?=^\.S)", page, re.M | re.S))
    for found in Described.of(tests.program).commands:
        part = parts.get(found.name, "")
        want = [f"\\fB{it.long}\\fR" for it in found.options if it.long != "--help"]
        want += [f"\\fI{name}\\fR" for name, _, _ in found.arguments]
        missing = [it for it in want if it not in part]
        tests.tell(f"the part of {found.name} in the man page", part and not missing, f"{missing}")


def new_flags(tests):
    """A flag that is new is in all of them, and a line of help in another form ends the run."""
    flag = "      --unknown-json  *Ignore unknown JSON fields"
    program = stands_in(tests.program, flag, "&\\n      --brand-new  Do what is new")
    for path, text in written(program).items():
        tests.tell(f"a new flag in {path}", text and "brand" in text, path)
    program = stands_in(tests.program, flag, "      unknown-json: ignores unknown fields")
    for path, text in written(program).items():
        tests.tell(f"help in another form, for {path}", text is None, path)


def other_name(tests):
    for path, text in written(tests.program, "flatc-proved").items():
        own = text.replace("\\-", "-")
        named = re.search(r"\bflatc(?![-_]proved\b)", own)
        tests.tell(f"the other name in {path}", "flatc-proved" in own and not named, f"{named}")


def linted(tests):
    if not shutil.which("mandoc"):
        skipped("mandoc -Tlint", "apt-get install mandoc")
        return
    write("flatc.1", written(tests.program)["flatc.1"].encode())
    done = subprocess.run(["mandoc", "-Tlint", "flatc.1"], capture_output=True, text=True)
    tests.tell("mandoc -Tlint", done.returncode == 0 and not done.stdout, done.stdout)
    shown = subprocess.run(["mandoc", "-Tascii", "flatc.1"], capture_output=True).stdout.decode()
    tests.tell("mandoc shows it", "--unknown-json" in re.sub(".\b", "", shown), shown[:200])


class Shell:
    """A shell at a terminal, whose line is written to .line when Control-T is typed."""

    def __init__(self, shell, program):
        words, start = STARTS[shell]
        os.makedirs("bin", exist_ok=True)
        if not os.path.lexists("bin/flatc"):
            os.symlink(program, "bin/flatc")
        env = {**os.environ, "PATH": f"{os.getcwd()}/bin:{os.environ['PATH']}", "TERM": "xterm", "HOME": os.getcwd()}
        how = {"env": env, "encoding": "utf-8", "timeout": 60, "dimensions": (50, 200)}
        self.child = pexpect.spawn(shell, words, **how)
        self.child.sendline(f"{start}; echo rea''dy")
        self.child.expect("ready")

    def line(self, typed, ends="\x15"):
        """The line that something typed becomes."""
        self.child.send(f"{typed}\t\x14")
        for _ in range(600):
            if os.path.exists(".line") and os.path.getsize(".line"):
                break
            time.sleep(0.02)
        have = (content(".line") or b"").decode().removesuffix("\n")
        if os.path.exists(".line"):
            os.remove(".line")
        self.child.send(ends)
        return have


def typed(tests):
    if not pexpect:
        skipped("what is typed into shells", "apt-get install python3-pexpect")
        return
    for path in FILES:
        write(path, b"")
    os.mkdir("outdir")
    os.mkdir("made")
    for path, text in written(tests.program).items():
        write(f"made/{path}", text.encode())
    for shell in STARTS:
        if not shutil.which(shell) or shell == "bash" and not os.path.exists(BASH_COMPLETION):
            skipped(f"what is typed into {shell}", f"apt-get install {shell} bash-completion")
            continue
        typed_into(tests, shell)


def typed_into(tests, shell):
    here = Shell(shell, tests.program)
    for begun, want in LINES + ([] if shell == "fish" else NAMED):
        have = here.line(begun)
        tests.tell(f"{shell}: {begun!r}", have == want, f"{have!r}, not {want!r}")
    here.child.send("flatc explain 10\t")
    try:
        here.child.expect("101.*EnumChanged", timeout=20)
        listed = True
    except pexpect.TIMEOUT:
        listed = False
    tests.tell(f"{shell}: numbers are listed with names", listed, here.child.before)
    here.child.close(force=True)


def main():
    tests = Tests("shells", program_of(sys.argv, __doc__))
    return tests.main((all_there, page_parts, new_flags, other_name, linted, typed))


if __name__ == "__main__":
    sys.exit(main())
