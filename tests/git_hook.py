#!/usr/bin/env python3
"""examples/hooks/pre-commit in a repository of its own: which commits of a schema it lets through.

usage: tests/git_hook.py PROGRAM

The last line is 'N passed, M failed'.
"""
import os
import shutil
import subprocess
import sys

from harness import ROOT, Tests, program_of, write

RELEASED = b"table U { hp:int; mp:int; } root_type U;"
GROWN = RELEASED.replace(b"mp:int;", b"mp:int; shield:int;")
MOVED = RELEASED.replace(b"hp:int;", b"shield:int; hp:int;")
BROKEN = RELEASED.replace(b"int", b"what")


class Repository:
    """A repository with the hook, and the program on its path."""

    def __init__(self, program):
        os.mkdir("programs")
        os.symlink(program, "programs/flatc")
        who = {f"GIT_{role}_{what}": "a@example.org" for role in ("AUTHOR", "COMMITTER") for what in ("NAME", "EMAIL")}
        path = f"{os.getcwd()}/programs:{os.environ['PATH']}"
        self.env = {**os.environ, **who, "PATH": path, "GIT_CONFIG_GLOBAL": "/dev/null", "HOME": os.getcwd()}
        self.git("init", "--quiet", "--initial-branch=main", "repository", at=".")
        shutil.copy(f"{ROOT}/examples/hooks/pre-commit", "repository/.git/hooks/pre-commit")

    def git(self, *words, at="repository"):
        done = subprocess.run(["git", *words], cwd=at, env=self.env, capture_output=True, text=True, check=False)
        return done.returncode, done.stdout + done.stderr

    def commit(self, text, in_tree=None, path="s.fbs"):
        """Commits a text; `in_tree` is what the file has then."""
        write(f"repository/{path}", text)
        self.git("add", path)
        write(f"repository/{path}", text if in_tree is None else in_tree)
        ended = self.git("commit", "--quiet", "--message=s")
        self.git("reset", "--quiet", "--hard")
        return ended


def commits(tests):
    repository = Repository(tests.program)

    def expect(what, status, said, *text, **more):
        ended, printed = repository.commit(*text, **more)
        tests.tell(what, ended == status and said in printed, f"status {ended}: {printed}")

    expect("a first schema that isn't well-formed", 1, "", BROKEN)
    expect("the first schema", 0, "", RELEASED)
    repository.git("switch", "--quiet", "--create", "work")
    expect("a field in the middle", 1, "103 NameMoved", MOVED)
    expect("its explanation", 1, "U.hp was field 0", MOVED)
    expect("a field in the middle that is only staged", 1, "103 NameMoved", MOVED, in_tree=RELEASED)
    expect("a field at the end, and another one in the tree", 0, "", GROWN, in_tree=MOVED)
    expect("a commit without a schema", 0, "", b"notes", path="notes.txt")


def main():
    tests = Tests("git hook", program_of(sys.argv, __doc__))
    return tests.main([commits])


if __name__ == "__main__":
    sys.exit(main())
