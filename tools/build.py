#!/usr/bin/env python3
"""Proves programs and libraries for C with all that they stand on, builds them, and leaves them in crates/CRATE/out.

usage: tools/build.py CRATE.. [--over-gate]

The crates are proved side by side, a job each. What a library states is left in out/CRATE, with a sum of all that its
proof read: a later build proves only what has changed since, and what is above it.

With --over-gate the libraries and programs that rt ci has just proved, and left in this tree, are taken as they are.

tools/seconds.txt has the processor time of each crate's proof, as one run printed it. How long a run takes is estimated
from that, and from how much faster or slower the crates were that it has proved.
"""
import argparse
import contextlib
import functools
import hashlib
import heapq
import os
import shutil
import signal
import subprocess
import sys
import tempfile
import time

ROOT = os.path.dirname(os.path.dirname(os.path.abspath(__file__)))
MEMORY_OF_A_JOB = 4_000_000_000
# More jobs in one crate read the same libraries again and again.
MOST_JOBS_OF_A_CRATE = 3
PARTS = ("src", "specs", "proofs", "c")
# The prover's allocator keeps what is freed: to give it back and get it again was half of all page faults.
os.environ.setdefault("MIMALLOC_PURGE_DELAY", "-1")


def read_crates():
    """The crates of crates.txt, each with its whole line and the crates of this repository that it lists."""
    lines = {}
    with open(f"{ROOT}/crates.txt", encoding="utf-8") as it:
        for line in it:
            head, colon, tail = line.partition("#")[0].partition(":")
            if colon:
                lines[head.split()[0]] = (line, tail.split())
    return {name: (line, [it for it in listed if it in lines]) for name, (line, listed) in lines.items()}


def below(crates, name):
    """The crates below a crate, each after those that it stands on."""
    found = []
    for it in crates[name][1]:
        found += [other for other in [*below(crates, it), it] if other not in found]
    return found


def jobs_here():
    memory = 0
    with open("/proc/meminfo", encoding="ascii") as it:
        for line in it:
            if line.startswith("MemAvailable:"):
                memory = 1024 * int(line.split()[1])
    return max(min(len(os.sched_getaffinity(0)), memory // MEMORY_OF_A_JOB), 1)


@functools.cache
def kit():
    """The toolchain's folder."""
    return os.path.dirname(subprocess.run(["rt", "doc"], capture_output=True, text=True, check=True).stdout.strip())


def is_program(name):
    return os.path.exists(f"{ROOT}/crates/{name}/src/main.rt")


def is_library_for_c(crates, name):
    return "staticlib" in crates[name][0].partition(":")[0]


def statements_of(name):
    """Where what a library states lies once it is proved."""
    return f"{ROOT}/out/{name}/{name}.rlib"


def made_of(crates, name):
    """What a proof of a crate leaves, and the file with the sum of what it read."""
    if is_program(name):
        made = f"{ROOT}/crates/{name}/out/{name}"
    elif is_library_for_c(crates, name):
        made = f"{ROOT}/crates/{name}/out/lib{name}.a"
    else:
        made = statements_of(name)
    return made, f"{os.path.dirname(made)}/built"


def files_of(name):
    """The files of a crate that its proof reads."""
    for part in PARTS:
        for at, folders, files in os.walk(f"{ROOT}/crates/{name}/{part}"):
            folders.sort()
            yield from (f"{at}/{it}" for it in sorted(files))


def sum_of(crates, name):
    """A sum of all that a proof of a crate reads, where the crates below it are proved."""
    with open(f"{kit()}/KIT-ID", encoding="utf-8") as it:
        total = hashlib.sha256(repr((it.read(), crates[name][0])).encode())
    # The file format of a library holds a sum of its other files.
    formats = [f"{statements_of(it)}/format" for it in below(crates, name)]
    for path in [*formats, *files_of(name)]:
        with open(path, "rb") as it:
            total.update(repr((os.path.relpath(path, ROOT), it.read())).encode())
    return total.hexdigest()


def is_proved(crates, name):
    made, noted = made_of(crates, name)
    with contextlib.suppress(OSError), open(noted, encoding="ascii") as it:
        return os.path.exists(made) and it.read() == sum_of(crates, name)
    return False


def words_of(crates, name, verb):
    """How rattle is called on a crate, over what the libraries below it state."""
    listed = crates[name][0].partition("#")[0].partition(":")[2].split()
    own = {it: os.path.dirname(statements_of(it)) for it in below(crates, name)}
    words = [f"{kit()}/bin/rattle", verb, "--crate-name", name, "src/main.rt" if is_program(name) else "src/lib.rt"]
    # What a crate uses without listing it comes first.
    for it in dict.fromkeys(["std", *listed]):
        words += ["--extern", f"{it}={own.get(it, f'{kit()}/rlibs')}/{it}.rlib"]
    for folder in [f"{kit()}/rlibs", *own.values()]:
        words += ["-L", f"dependency={folder}"]
    words += ["--antt-project", f"{kit()}/rattle/logic/antt-project.json", "--logic-built", f"{kit()}/logic_built"]
    return [*words, "--crate-type", "staticlib"] if is_library_for_c(crates, name) else words


def commands_of(crates, name):
    """The commands that prove a crate and leave what it is for."""
    made, _ = made_of(crates, name)
    words = [*words_of(crates, name, "build"), "--links", f"{name}=", "--jobs", "1"]
    compiled = ["--toolchain", f"{kit()}/toolchain", "--backend", "llvm"]
    if is_program(name):
        link = [f"{kit()}/bin/rattle-link", "--target", "x86_64-unknown-linux-gnu", "--toolchain", f"{kit()}/toolchain"]
        archives = [f"{kit()}/c/libos_c.a", f"{kit()}/c/liblibc_c.a"]
        return [[*words, *compiled, "-o", f"{made}.o"], [*link, "-o", made, f"{made}.o", *archives]]
    return [[*words, *(compiled if is_library_for_c(crates, name) else ["--statements"]), "-o", made]]


class Proof:
    """A crate's proof, in processes of their own."""

    def __init__(self, crates, name):
        self.name, (self.made, self.noted) = name, made_of(crates, name)
        self.sum, self.seconds = sum_of(crates, name), 0
        self.commands = commands_of(crates, name)
        self.log = tempfile.TemporaryFile(mode="w+", errors="replace")
        with contextlib.suppress(FileNotFoundError):
            os.remove(self.noted)
        os.makedirs(os.path.dirname(self.made), exist_ok=True)
        self.go_on()

    def go_on(self):
        how = {"stdin": subprocess.DEVNULL, "stdout": self.log, "stderr": subprocess.STDOUT}
        where = f"{ROOT}/crates/{self.name}"
        self.child = subprocess.Popen(self.commands.pop(0), cwd=where, start_new_session=True, **how)

    def kill(self):
        with contextlib.suppress(ProcessLookupError):
            os.killpg(self.child.pid, signal.SIGTERM)

    def has_ended(self):
        ended, status, used = os.wait4(self.child.pid, os.WNOHANG)
        if ended:
            self.seconds += used.ru_utime + used.ru_stime
            self.child.returncode = os.waitstatus_to_exitcode(status)
            if self.child.returncode == 0 and self.commands:
                self.go_on()
        return self.child.returncode is not None

    def note(self, crates):
        """Notes the sum of what was read, unless it has changed since. Returns whether the crate is proved."""
        if self.child.returncode:
            self.log.seek(0)
            print("".join(self.log.readlines()[-40:]), end="", flush=True)
            return False
        if sum_of(crates, self.name) == self.sum:
            with open(self.noted, "w", encoding="ascii") as it:
                it.write(self.sum)
        return True


@functools.cache
def noted_seconds():
    """The crates of tools/seconds.txt, each with the seconds of processor time that its proof took."""
    with open(f"{ROOT}/tools/seconds.txt", encoding="utf-8") as it:
        rows = [line.split() for line in it if not line.startswith("#")]
    return {name: int(seconds) for name, seconds in rows}


def size_of(name):
    return sum(os.path.getsize(it) for it in files_of(name))


@functools.cache
def seconds_of(name):
    """The seconds of processor time that a crate's proof takes, by its size where they aren't noted."""
    noted = noted_seconds()
    if name in noted:
        return noted[name]
    known = [it for it in noted if os.path.isdir(f"{ROOT}/crates/{it}")]
    return size_of(name) * sum(noted[it] for it in known) / max(sum(size_of(it) for it in known), 1)


def critical_path_first(crates, names):
    """Some crates, those first that begin the longest chain of proofs."""

    @functools.cache
    def chain(name):
        return seconds_of(name) + max((chain(it) for it in names if name in crates[it][1]), default=0)

    return sorted(names, key=chain, reverse=True)


def next_ready(crates, left, names, proved):
    """The first crate that is left and has all proved that it stands on."""
    for name in left:
        if all(it in proved or it not in names for it in crates[name][1]):
            return name
    return None


def planned_seconds(crates, names, jobs):
    """The seconds from the first proof to the last, where each takes as long as seconds_of says."""
    left, running, proved, now = critical_path_first(crates, names), [], [], 0
    while left or running:
        name = next_ready(crates, left, names, proved) if len(running) < jobs else None
        if name:
            left.remove(name)
            heapq.heappush(running, (now + seconds_of(name), name))
        else:
            now, name = heapq.heappop(running)
            proved.append(name)
    return now


class Estimate:
    """How long a run takes: its plan, times how much longer the proved crates took than the plan has for them.

    One crate says little of the others, so the plan counts as much as TRUST seconds of proofs.
    """

    TRUST = 300

    def __init__(self, crates, names, jobs):
        self.crates, self.names, self.jobs = crates, list(names), jobs
        self.planned, self.taken = 0, 0

    def leave_out(self, name):
        if name in self.names:
            self.names.remove(name)

    def add(self, name, seconds):
        self.planned += seconds_of(name)
        self.taken += seconds

    def total(self):
        pace = (self.taken + self.TRUST) / (self.planned + self.TRUST)
        return pace * planned_seconds(self.crates, self.names, self.jobs)


def in_minutes(seconds):
    minutes = round(seconds / 60)
    return f"about {minutes} min" if minutes else "less than a minute"


def unproved(crates, names):
    """The crates that aren't proved, or stand on one that isn't."""
    found = []
    for name in names:
        if any(it in found for it in crates[name][1]) or not is_proved(crates, name):
            found.append(name)
    return found


class Progress:
    """Lines that say how far a run is."""

    def __init__(self, crates, names, jobs):
        stale = unproved(crates, names)
        self.began, self.done, self.count = time.monotonic(), 0, len(names)
        self.estimate = Estimate(crates, stale, jobs)
        if stale:
            how = f"{jobs} at a time, {in_minutes(self.estimate.total())}"
            print(f"to prove: {len(stale)} of {len(names)} crates, {how}", flush=True)

    def tell(self, name, how, left=""):
        minutes, rest = divmod(round(time.monotonic() - self.began), 60)
        print(f"[{self.done} of {self.count}, {minutes}:{rest:02}] {name}: {how}{left}", flush=True)

    def was_proved(self, name):
        self.done += 1
        self.estimate.leave_out(name)
        self.tell(name, "proved before")

    def ended(self, name, well, seconds):
        self.done += well
        self.estimate.add(name, seconds)
        left = max(self.estimate.total() - (time.monotonic() - self.began), 0)
        more = f", {in_minutes(left)} left" if well and self.done < self.count else ""
        self.tell(name, f"{'proved' if well else 'NOT PROVED'} ({seconds:.0f} s of processor time)", more)


def prove(crates, names):
    """Proves crates, each once those below it are; prints how far it is, and what fails. Returns whether all are."""
    jobs, failed = jobs_here(), False
    left, running, proved = critical_path_first(crates, names), [], []
    progress = Progress(crates, names, jobs)
    try:
        while running or (left and not failed):
            name = next_ready(crates, left, names, proved) if len(running) < jobs and not failed else None
            if name:
                left.remove(name)
                if is_proved(crates, name):
                    proved.append(name)
                    progress.was_proved(name)
                else:
                    running.append(Proof(crates, name))
                continue
            time.sleep(0.1)
            for it in [it for it in running if it.has_ended()]:
                running.remove(it)
                well = it.note(crates)
                failed = failed or not well
                proved += [it.name] * well
                progress.ended(it.name, well, it.seconds)
    finally:
        for it in running:
            it.kill()
    return not failed


def take_over_gate(crates, names):
    """Takes what rt ci left of crates, all of which it has proved."""
    for name in names:
        made, noted = made_of(crates, name)
        left = f"{ROOT}/crates/{name}/out/rlib/{name}.rlib"
        if made == statements_of(name):
            if not os.path.exists(left):
                continue
            shutil.rmtree(os.path.dirname(made), ignore_errors=True)
            os.makedirs(os.path.dirname(made))
            os.rename(left, made)
        if os.path.exists(made) and not is_library_for_c(crates, name):
            with open(noted, "w", encoding="ascii") as it:
                it.write(sum_of(crates, name))


def main():
    parser = argparse.ArgumentParser(description=__doc__.split("\n", 1)[0])
    parser.add_argument("crates", nargs="+")
    parser.add_argument("--over-gate", action="store_true")
    given = parser.parse_args()
    signal.signal(signal.SIGTERM, lambda *_: sys.exit(143))
    crates = read_crates()
    names = list(dict.fromkeys(it for name in given.crates for it in [*below(crates, name), name]))
    if given.over_gate:
        take_over_gate(crates, names)
    return 0 if prove(crates, names) else 1


if __name__ == "__main__":
    sys.exit(main())
