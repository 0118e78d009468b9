#!/usr/bin/env python3
"""The hooks for pre-commit, by commits of good and bad schemas in a repository of their own, where pre-commit is
installed; and what the action for a CI service runs, over a tarball with the built program.

usage: tests/hooks.py PROGRAM

The last line is 'N passed, M failed'.
"""
import hashlib
import os
import re
import shutil
import subprocess
import sys

from harness import ROOT, Tests, content, program_of, write

HOOKS = os.path.join(ROOT, "examples", "hooks")
REFUSED = os.path.join(ROOT, "examples", "refused")
ORC = content(os.path.join(ROOT, "examples", "orc.fbs"))
GROWN = ORC.replace(b"colors:[Color];", b"colors:[Color];\n  mana:short;")
WHO = {f"GIT_{role}_{what}": "test@example.org" for role in ("AUTHOR", "COMMITTER") for what in ("NAME", "EMAIL")}
CONFIG = """\
repos:
  - repo: {hooks}
    rev: v1
    hooks:
      - id: flatc-check
      - id: flatc-conform
        args: [--base=main]
"""
# What is committed: a file, its text, and what the refusal has in it; None where the commit goes through.
COMMITS = [
    ("a schema more", "more.fbs", ORC, None),
    ("a field more", "orc.fbs", GROWN, None),
    ("a schema that isn't well-formed", "hp.fbs", content(f"{REFUSED}/hp.fbs"), "12 BadDefault"),
    ("another default", "orc.fbs", content(f"{REFUSED}/orc_v2.fbs"), "97 DefaultChanged"),
    ("a field before others", "orc.fbs", content(f"{REFUSED}/orc_v3.fbs"), "103 NameMoved"),
    ("a name with a blank", "two words.fbs", content(f"{REFUSED}/hp.fbs"), "two words.fbs:3:14"),
    ("a name with a dash", "-hp.fbs", content(f"{REFUSED}/hp.fbs"), "12 BadDefault"),
    ("no schema", "notes.txt", b"table", None),
]


def run(words, **more):
    return subprocess.run(words, stdout=subprocess.PIPE, stderr=subprocess.STDOUT, text=True, timeout=600, **more)


def git(*words):
    """Runs git, and returns what it printed."""
    done = run(["git", *words])
    if done.returncode:
        raise RuntimeError(f"git {words}: {done.stdout}")
    return done.stdout


def surroundings(program):
    """No settings of this machine, and the program as flatc."""
    os.makedirs("home")
    os.environ |= WHO | {"HOME": os.path.abspath("home"), "PRE_COMMIT_HOME": os.path.abspath("home/pre-commit")}
    os.environ |= {"FLATC": program, "GIT_CONFIG_NOSYSTEM": "1", "GIT_CONFIG_GLOBAL": "/dev/null"}


def start_repository(folder):
    """A repository with a schema on the branch main, from which work goes off."""
    os.mkdir(folder)
    os.chdir(folder)
    git("init", "--quiet", "--initial-branch=main")
    write("orc.fbs", ORC)
    git("add", ".")
    git("commit", "--quiet", "--message=first")
    git("switch", "--quiet", "--create", "work")


def hooks_repository():
    """A repository that has the hooks, as pre-commit takes them: by a tag."""
    folder = os.path.abspath("hooks")
    shutil.copytree(HOOKS, f"{folder}/examples/hooks")
    shutil.copy(f"{ROOT}/.pre-commit-hooks.yaml", folder)
    for words in (["init", "--quiet"], ["add", "."], ["commit", "--quiet", "--message=hooks"], ["tag", "v1"]):
        git("-C", folder, *words)
    return folder


def is_right(done, refusal):
    """Whether a run went through, or was refused with this in what it printed."""
    return done.returncode == 0 if refusal is None else done.returncode != 0 and refusal in done.stdout


def pre_commit(tests):
    if not shutil.which("pre-commit"):
        print("hooks: pre-commit: skipped; apt-get install pre-commit", flush=True)
        return
    surroundings(tests.program)
    hooks = hooks_repository()
    start_repository("repository")
    write(".pre-commit-config.yaml", CONFIG.format(hooks=hooks).encode())
    git("add", ".")
    done = run(["pre-commit", "install"])
    tests.tell("pre-commit install", done.returncode == 0, done.stdout)
    for what, path, text, refusal in COMMITS:
        write(path, text)
        git("add", "--", path)
        done = run(["git", "commit", "--quiet", "--message=change"])
        tests.tell(f"pre-commit: {what}", is_right(done, refusal), f"status {done.returncode}: {done.stdout}")
        git("reset", "--quiet", "--hard")


def script(tests):
    """The script by itself: what pre-commit never asks of it."""
    surroundings(tests.program)
    start_repository("repository")
    done = run([f"{HOOKS}/schemas", "conform", "orc.fbs"])
    refused = done.returncode == 1 and "no commit origin/main" in done.stdout
    tests.tell("no commit to compare with", refused, done.stdout)
    write("orc.fbs", content(f"{REFUSED}/orc_v2.fbs"))
    write("good.fbs", ORC)
    done = run([f"{HOOKS}/schemas", "conform", "--base=main", "orc.fbs", "good.fbs"])
    tests.tell("one of two is refused", done.returncode == 1 and "97 DefaultChanged" in done.stdout, done.stdout)
    done = run([f"{HOOKS}/schemas", "what", "orc.fbs"])
    tests.tell("no such job", done.returncode == 2, done.stdout)


def act(tarball, sha256, base=""):
    """Runs what the action runs, and returns how it ended and what it put on the path."""
    shutil.rmtree("../runner", ignore_errors=True)
    os.mkdir("../runner")
    runner = os.path.abspath("../runner")
    env = {**os.environ, "RUNNER_TEMP": runner, "GITHUB_PATH": f"{runner}/path"}
    env |= {"TARBALL": tarball, "SHA256": sha256, "BASE": base}
    done = run([f"{HOOKS}/action"], env=env)
    return done, (content(f"{runner}/path") or b"").decode()


def action(tests):
    surroundings(tests.program)
    os.makedirs("flatc/bin")
    shutil.copy(tests.program, "flatc/bin/flatc")
    run(["tar", "-czf", "flatc.tar.gz", "flatc"], check=True)
    tarball, sha256 = os.path.abspath("flatc.tar.gz"), hashlib.sha256(content("flatc.tar.gz")).hexdigest()
    start_repository("repository")
    done, path = act(tarball, sha256)
    runs = run([f"{path.strip()}/flatc", "check", "orc.fbs"])
    tests.tell("the action installs", done.returncode == 0 and runs.stdout == "ok\n", f"{done.stdout}{runs.stdout}")
    done, path = act(tarball, sha256[::-1])
    tests.tell("the action refuses another sum", done.returncode and not path, done.stdout)
    tests.tell("no schema changed", act(tarball, sha256, "main")[0].returncode == 0)
    for what, path, text, refusal in COMMITS:
        write(path, text)
        git("add", "--", path)
        done, _ = act(tarball, sha256, "main")
        tests.tell(f"the action: {what}", is_right(done, refusal), f"status {done.returncode}: {done.stdout}")
        git("reset", "--quiet", "--hard")
    done, _ = act(tarball, sha256, "nothing")
    tests.tell("the action refuses a base that isn't there", done.returncode, done.stdout)


def described(tests):
    """action.yml gives the script what it reads."""
    text = content(os.path.join(ROOT, "action.yml")).decode()
    given = dict(re.findall(r"^        ([A-Z0-9]+): \$\{\{ inputs\.(\w+) \}\}$", text, re.M))
    inputs = re.findall(r"^  (\w+):\n    description: ", text, re.M)
    read = set(re.findall(r"\$\{?([A-Z][A-Z0-9_]+)", content(f"{HOOKS}/action").decode()))
    tests.tell("what the action reads", read - {"RUNNER_TEMP", "GITHUB_PATH"} == set(given), f"{read}, {given}")
    tests.tell("the action's inputs", inputs and sorted(given.values()) == sorted(inputs), f"{inputs}, {given}")
    tests.tell("the action's script", '"$GITHUB_ACTION_PATH/examples/hooks/action"' in text, text)


def main():
    tests = Tests("hooks", program_of(sys.argv, __doc__))
    return tests.main((pre_commit, script, action, described))


if __name__ == "__main__":
    sys.exit(main())
