#!/usr/bin/env python3
"""Tries the edits of crates/*/mutations: each turns the meaning of a function, and the prover has to refuse it.

usage: tools/mutations.py [CRATE..]      tries the edits of all crates, or of these
       tools/mutations.py --stale [CRATE..]  tries only those that read something else when they were last refused
       tools/mutations.py --applies      only checks that each edit can still be applied, and counts the stale ones
       tools/mutations.py --not-compiled tries the edits of crates/*/not-compiled instead

An edit has the form that rt gives those in must-fail/: lines 'file: src/lib.rt', and then pairs of lines 'old: TEXT'
and 'new: TEXT', where the old text is in that file exactly once. The crates below are proved first, as tools/build.py
does. Of each crate the modules that edits change are proved once, and over what that leaves each edit is tried: in the
modules that it changes, and in the whole crate where these are still proved. The last line is
'N refused, M not refused'.

What was refused is noted in tools/mutations.tried, with a sum of what the trial read: the toolchain's logic (which two
kits may share), the edit, the crate, and what the crates below it state (their specs, and their sources without the
bodies of functions).

An edit in crates/*/not-compiled writes what can't even be compiled, and has a line 'error: NAME' more: the compiler has
to refuse it with that error, and no other. The crates below have to be proved. The last line is
'N passed, M failed'.
"""
import argparse
import concurrent.futures
import contextlib
import functools
import glob
import hashlib
import os
import re
import shutil
import subprocess
import sys
import tempfile

from build import MOST_JOBS_OF_A_CRATE, ROOT, below, files_of, jobs_here, kit, prove, read_crates, words_of

TRIED = f"{ROOT}/tools/mutations.tried"


def edited(edit, folder):
    """The texts of the files that an edit changes, by their paths in the crate, or why it can't be applied."""
    texts, path, old = {}, "", ""
    with open(edit, encoding="utf-8") as it:
        lines = it.read().split("\n")
    for line in lines:
        if line.startswith("file: "):
            path = line[len("file: ") :].strip()
        elif line.startswith("old: "):
            old = line[len("old: ") :]
        elif line.startswith("new: "):
            if path not in texts:
                try:
                    with open(f"{folder}/{path}", encoding="utf-8") as it:
                        texts[path] = it.read()
                except OSError:
                    return None, f"there is no file {path}"
            found = texts[path].count(old) if old else 0
            if found != 1:
                return None, f"its old text is in {path} {found} times, and not once"
            texts[path] = texts[path].replace(old, line[len("new: ") :])
    return (texts, "") if texts else (None, "it changes nothing")


def edits_of(name, kind="mutations"):
    return sorted(glob.glob(f"{ROOT}/crates/{name}/{kind}/*.edit"))


def without_bodies(text):
    """A source without the bodies of its functions, in the layout of rt fmt."""
    kept, closing = [], None
    for line in text.split("\n"):
        if closing is not None:
            closing = None if line == closing else closing
            continue
        kept.append(line)
        opening = re.fullmatch(r"( *)\{|( *)\S.*\bfn .*\{", line)
        if opening:
            closing = f"{opening[1] or opening[2] or ''}}}"
    return "\n".join(kept)


@functools.cache
def text_of(path):
    with open(path, encoding="utf-8") as it:
        return it.read()


def logic():
    """The second half of the kit's line: 'rattle-kit-13b logic dac8..' and 'rattle-kit-13f logic dac8..' refuse alike."""
    return text_of(f"{kit()}/KIT-ID").partition(" logic ")[2].strip()


@functools.cache
def statements_sum(name):
    """A sum of what a crate states for those above it."""
    total = hashlib.sha256()
    for path in files_of(name):
        where = os.path.relpath(path, f"{ROOT}/crates/{name}")
        if where.startswith("specs/"):
            total.update(repr((where, text_of(path))).encode())
        elif where.startswith("src/"):
            total.update(repr((where, without_bodies(text_of(path)))).encode())
    return total.hexdigest()


@functools.cache
def crate_sum(name):
    """A sum of what a trial of one of a crate's edits reads, without the edit."""
    crates = read_crates()
    total = hashlib.sha256(repr((logic(), crates[name][0])).encode())
    for path in files_of(name):
        total.update(repr((os.path.relpath(path, ROOT), text_of(path))).encode())
    for other in below(crates, name):
        total.update(repr((other, statements_sum(other))).encode())
    return total.hexdigest()


def sum_of_trial(edit, name):
    return hashlib.sha256((crate_sum(name) + text_of(edit)).encode()).hexdigest()[:16]


def read_tried():
    """The edits that were refused, each with the sum of what was read then."""
    with contextlib.suppress(FileNotFoundError), open(TRIED, encoding="ascii") as it:
        return dict(line.split() for line in it)
    return {}


def is_stale(edit, name, tried):
    return tried.get(os.path.relpath(edit, ROOT)) != sum_of_trial(edit, name)


def note_tried(name, refused):
    """Notes which edits of a crate were refused now; those that are gone are forgotten."""
    tried = {path: total for path, total in read_tried().items() if os.path.exists(f"{ROOT}/{path}")}
    tried.update({os.path.relpath(it, ROOT): sum_of_trial(it, name) for it in refused})
    with open(TRIED, "w", encoding="ascii") as it:
        it.writelines(f"{path} {total}\n" for path, total in sorted(tried.items()))


def do_all_apply(crates):
    failed = 0
    tried = read_tried()
    edits = [(it, name) for name in crates for it in edits_of(name)]
    for edit, name in edits:
        _, why = edited(edit, f"{ROOT}/crates/{name}")
        if why:
            failed += 1
            print(f"mutation {os.path.relpath(edit, ROOT)}: can't be applied: {why}")
    stale = sum(is_stale(it, name, tried) for it, name in edits)
    print(f"of {len(edits)} mutations {len(edits) - stale} were refused as they are; those that can be applied:")
    print(f"{len(edits) - failed} passed, {failed} failed")
    return failed


def wanted_error(edit):
    with open(edit, encoding="utf-8") as it:
        for line in it:
            if line.startswith("error: "):
                return line[len("error: ") :].strip()
    return ""


@contextlib.contextmanager
def copy_with(edit, name, kind):
    """A folder with a crate's copy to which an edit was made; the paths of the files that changed, and why not."""
    with tempfile.TemporaryDirectory(prefix=f"{kind}-{name}-") as room:
        folder = shutil.copytree(f"{ROOT}/crates/{name}", f"{room}/{name}", ignore=shutil.ignore_patterns("out"))
        texts, why = edited(edit, folder)
        for path, text in (texts or {}).items():
            with open(f"{folder}/{path}", "w", encoding="utf-8") as it:
                it.write(text)
        yield room, list(texts or ()), f"can't be applied: {why}" if why else ""


def run(words, folder):
    """A command's status, and the lines that it printed."""
    how = {"stdin": subprocess.DEVNULL, "stdout": subprocess.PIPE, "stderr": subprocess.STDOUT, "errors": "replace"}
    ran = subprocess.run(words, cwd=folder, check=False, **how)
    return ran.returncode, ran.stdout.rstrip("\n").split("\n")


def compile_edit(edit, name, words):
    """Whether the compiler refuses an edit with its error alone, and why not."""
    with copy_with(edit, name, "not-compiled") as (room, _, why):
        if why:
            return False, why
        status, lines = run(words, f"{room}/{name}")
    errors = [it for it in lines if re.search(r": error\b", it)]
    if status and len(errors) == 1 and f"error[{wanted_error(edit)}]" in errors[0]:
        return True, ""
    return False, "\n".join([f"isn't refused with error[{wanted_error(edit)}] alone:", *(errors or lines[-6:])])


def do_none_compile(crates):
    passed, failed = 0, 0
    for edit, name in [(it, name) for name in crates for it in edits_of(name, "not-compiled")]:
        words = [*words_of(crates, name, "check"), "--jobs", "1", "--only", ""]
        well, why = compile_edit(edit, name, words)
        passed, failed = passed + well, failed + (not well)
        if why:
            print(f"edit {os.path.relpath(edit, ROOT)}: {why}")
    print("edits that the compiler refuses:")
    print(f"{passed} passed, {failed} failed")
    return failed or not passed


def modules_of(paths):
    """The modules of some files of a crate, or none where one isn't that of a module."""
    found = [re.fullmatch(r"src/(.+)\.rt", it) for it in paths]
    if not all(found) or any(it[1] == "lib" for it in found):
        return []
    return [it[1].replace("/", "::") for it in found]


def only_edited(edits, name):
    """The words by which the prover checks only the modules that edits change; none where that is the whole crate."""
    changed = [modules_of(edited(it, f"{ROOT}/crates/{name}")[0] or ()) for it in edits]
    if not all(changed):
        return []
    return [word for it in sorted({it for them in changed for it in them}) for word in ("--only", it)]


def check(words, folder):
    """Whether a crate is proved: None where the prover gives no verdict. And what is said of it."""
    status, lines = run(words, folder)
    judged = status == 1 and re.match(r"logic=not-proved|only=", lines[-1])
    return True if status == 0 else False if judged else None, lines


def reason(lines):
    """What an edit is refused for: None where its text can't be read, so that nothing was tried."""
    said = [it for it in lines if re.search(r":\d+:\d+:? ", it) and (": error" in it or it.startswith("note: "))]
    wrong = "is not in scope|has no field|is no name|operand is missing|cannot continue"
    unread = rf"(\./)?(src|specs)/\S+: error: .*({wrong})"
    if not said or any(re.match(unread, it) for it in said):
        return None
    # A proof that names what the edit took away says little of the contract.
    names = r"(note: )?(\./)?proofs/.*(has no field|is not in scope|has no `|was not admitted)"
    first = next((it for it in said if not re.match(names, it)), "")
    return first or f"(only since a proof names what the edit took away) {said[0]}"


def try_edit(edit, name, words, seed):
    """Whether the prover refuses an edit, over what it left of the crate as it stands; and what to say."""
    with copy_with(edit, name, "mutation") as (room, paths, why):
        if why:
            return False, why
        # The prover replaces files there, and changes none.
        shutil.copytree(seed, f"{room}/seed", symlinks=True, copy_function=os.link)
        words = [*words, "--jobs", "1", "--incremental", f"{room}/seed"]
        for only in [*(["--only", it] for it in modules_of(paths)), []]:
            proved, lines = check([*words, *only], f"{room}/{name}")
            if proved is None:
                return False, "\n".join(["is not tried, since the prover gives no verdict:", *lines[-6:]])
            if not proved:
                why = reason(lines)
                return bool(why), f"refused, as it must be: {why[:160]}" if why else "can't be read by the prover"
    return False, "NOT REFUSED: the crate is still proved with it"


def try_crate(crates, name, edits):
    """Tries edits of a crate over the libraries below; returns how many were refused."""
    words, jobs = words_of(crates, name, "check"), jobs_here()
    with tempfile.TemporaryDirectory(prefix=f"seed-{name}-") as seed:
        more = ["--jobs", str(min(jobs, MOST_JOBS_OF_A_CRATE)), "--incremental", seed]
        proved, lines = check([*words, *more, *only_edited(edits, name)], f"{ROOT}/crates/{name}")
        if not proved:
            print(f"{name} isn't proved:", *lines[-6:], sep="\n")
            return 0
        with concurrent.futures.ThreadPoolExecutor(jobs) as pool:
            refused = []
            for edit, (well, said) in zip(edits, pool.map(lambda it: try_edit(it, name, words, seed), edits)):
                refused += [edit] * well
                print(f"{os.path.relpath(edit, ROOT)}: {said}", flush=True)
    note_tried(name, refused)
    return len(refused)


def try_all(crates, names, only_stale):
    """Tries the edits of some crates, or the stale ones alone; returns how many weren't refused."""
    tried = read_tried()
    edits = {name: [it for it in edits_of(name) if not only_stale or is_stale(it, name, tried)] for name in names}
    names = [it for it in names if edits[it]]
    wanted = [it for it in crates if any(it in below(crates, name) for name in names)]
    if not prove(crates, wanted):
        return 1
    refused = sum(try_crate(crates, name, edits[name]) for name in names)
    left = sum(len(edits[it]) for it in names) - refused
    print(f"{refused} refused, {left} not refused")
    return left


def main():
    parser = argparse.ArgumentParser(description=__doc__.split("\n", 1)[0])
    parser.add_argument("crates", nargs="*")
    parser.add_argument("--applies", action="store_true")
    parser.add_argument("--not-compiled", action="store_true")
    parser.add_argument("--stale", action="store_true")
    given = parser.parse_args()
    crates = read_crates()
    if given.applies:
        return 1 if do_all_apply(crates) else 0
    if given.not_compiled:
        return 1 if do_none_compile(crates) else 0
    names = [it for it in crates if it in given.crates or not given.crates]
    return 1 if try_all(crates, names, given.stale) else 0


if __name__ == "__main__":
    sys.exit(main())
