"""What the tests of the built program share: counts, runs with a time limit or at a terminal, files that hold what they
should, and counted instructions."""
import os
import pty
import re
import shutil
import subprocess
import sys
import tempfile
import threading
import tty

ROOT = os.path.dirname(os.path.dirname(os.path.abspath(__file__)))
SECONDS = 120
# It counts instructions.
VALGRIND = shutil.which("valgrind")
COUNTED_SECONDS = 300
# In bytes.
SMALL_STACK = 256 * 1024

ONE = b"table T { a:int; } root_type T;"
SEVEN = bytes.fromhex("0c000000 0000 0600 0800 0400 06000000 07000000")
SEVEN_TEXT = b'{\n  "a": 7\n}\n'


def instructions(words):
    """The status and the instructions of a run under valgrind."""
    counted = [VALGRIND, "--tool=callgrind", "--callgrind-out-file=/dev/null", *words]
    done = subprocess.run(counted, stdin=subprocess.DEVNULL, capture_output=True, check=False, timeout=COUNTED_SECONDS)
    found = re.search(rb"Collected : ([0-9]+)", done.stderr)
    return done.returncode, int(found[1]) if found else 0


class Tests:
    """A program under test, and how many checks of it passed and failed."""

    def __init__(self, name, program):
        self.name = name
        self.program = program
        self.passed = 0
        self.failed = 0
        self.lock = threading.Lock()

    def tell(self, what, good, why=""):
        with self.lock:
            if good:
                self.passed += 1
            else:
                self.failed += 1
                print(f"{self.name}: {what}: {why}", flush=True)

    def run(self, words, **more):
        more.setdefault("stdout", subprocess.PIPE)
        more.setdefault("stdin", subprocess.DEVNULL)
        return subprocess.run([self.program, *words], stderr=subprocess.PIPE, timeout=SECONDS, check=False, **more)

    def expect(self, what, words, status, out=b"", err=b"", holds=None, **more):
        """The status, what is printed and what the files in `holds` have then; None is a file that isn't there."""
        try:
            done = self.run(words, **more)
        except subprocess.TimeoutExpired:
            self.tell(what, False, "too slow")
            return
        problems = []
        if done.returncode != status:
            problems.append(f"status {done.returncode}, not {status}")
        if done.stdout is not None and done.stdout != out:
            problems.append(f"printed {done.stdout[:200]!r}, not {out[:200]!r}")
        if done.stderr != err:
            problems.append(f"told {done.stderr[:200]!r}, not {err!r}")
        for path, want in (holds or {}).items():
            have = content(path)
            if have != want:
                problems.append(f"{path} holds {have and have[:99]!r}, not {want and want[:99]!r}")
        self.tell(what, not problems, "; ".join(problems))

    def at_terminal(self, words, stdin=subprocess.DEVNULL, env=None):
        """The status of a run, and what its standard error shows where that is a terminal."""
        ours, theirs = pty.openpty()
        tty.setraw(theirs)
        streams = {"stdin": stdin, "stdout": subprocess.DEVNULL, "stderr": theirs}
        with subprocess.Popen([self.program, *words], env=env, **streams) as child:
            os.close(theirs)
            shown = b""
            while piece := read_some(ours):
                shown += piece
            os.close(ours)
            return child.wait(SECONDS), shown

    def main(self, parts):
        """Runs each part in an empty folder, and returns the process's status."""
        for part in parts:
            with tempfile.TemporaryDirectory() as folder:
                os.chdir(folder)
                try:
                    part(self)
                except Exception as problem:
                    self.tell(part.__name__, False, repr(problem))
                os.chdir("/")
        print(f"{self.passed} passed, {self.failed} failed", flush=True)
        return 1 if self.failed or not self.passed else 0


def read_some(terminal):
    """The next bytes of a terminal; none where the other side is closed."""
    try:
        return os.read(terminal, 65536)
    except OSError:
        return b""


def content(path):
    if not os.path.lexists(path):
        return None
    with open(path, "rb") as file:
        return file.read()


def write(path, what):
    with open(path, "wb") as file:
        file.write(what)


def program_of(argv, usage):
    """The program that a script's only argument names."""
    if len(argv) != 2:
        sys.exit(usage)
    return os.path.abspath(argv[1])
