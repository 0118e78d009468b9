#!/usr/bin/env python3
"""The Rust crates in bindings/rust over the library as it is built: their tests and the examples of their docs, linked
to libflatc.so and to libflatc.a, calls that run out of memory, how the library is found, and what cargo's fmt, clippy
and doc find.

usage: tests/rust_crates.py FOLDER

FOLDER has libflatc.a and libflatc.so. Nothing is downloaded. Without cargo, or with one that is too old, only the
sources are checked. clippy and fmt are used where they are installed. The last line is 'N passed, M failed'.
"""
import glob
import os
import re
import shutil
import subprocess
import sys

from harness import ROOT, Tests, content, write
from hostile import refusing, shim

sys.path.append(f"{ROOT}/tools")

from version import version  # noqa: E402

CRATES = os.path.join(ROOT, "bindings", "rust")
# What decides how the library is found.
FINDING = ("FLATC_LIB_DIR", "FLATC_STATIC", "LD_LIBRARY_PATH", "PKG_CONFIG", "PKG_CONFIG_PATH", "PKG_CONFIG_LIBDIR")
# Calls, and how they end where memory suffices.
CALLS = dict.fromkeys(("new", "try_clone", "encode", "decode", "verify", "conform"), "done") | {"refuse": "OutOfRange"}
MOST = 2_000
OLD_PC = b"prefix=/usr\nlibdir=${prefix}/lib\nName: flatc\nDescription: an old one\nVersion: 0.1.0\nLibs: -lflatc\n"


def skipped(what, why):
    print(f"rust_crates: {what}: skipped; {why}", flush=True)


def cargo(command, *words, folder=CRATES, **env):
    """Runs cargo on the crates, with a target folder in the current one."""
    kept = {name: value for name, value in os.environ.items() if name not in FINDING}
    kept |= {"CARGO_TARGET_DIR": os.path.abspath("target"), "CARGO_TERM_COLOR": "never"}
    offline = [] if command == "fmt" else ["--offline", "--locked"]
    return subprocess.run(
        ["cargo", command, *offline, *words], cwd=folder, env=kept | env, stdin=subprocess.DEVNULL,
        stdout=subprocess.PIPE, stderr=subprocess.STDOUT, text=True, timeout=1200, check=False,
    )


def succeeded(tests, what, command, *words, **env):
    """Runs cargo, which has to succeed, and returns what it printed."""
    ran = cargo(command, *words, **env)
    tests.tell(what, ran.returncode == 0, f"status {ran.returncode}: {ran.stdout[-900:]}")
    return ran.stdout


def tested(tests, what, least, *words, **env):
    """Runs tests, at least `least` of them."""
    counts = re.findall(r"^test result: ok\. (\d+) passed; 0 failed; 0 ignored", succeeded(
        tests, what, "test", *words, **env), re.M)
    tests.tell(f"{what}: how many", sum(map(int, counts)) >= least, f"{counts}")


def why_not():
    """Why the crates can't be built here, or None."""
    if not shutil.which("cargo") or not shutil.which("rustc"):
        return "apt-get install cargo"
    wanted = re.search(r'rust-version = "([\d.]+)"', content(f"{CRATES}/Cargo.toml").decode())[1]
    said = subprocess.run(["rustc", "--version"], stdout=subprocess.PIPE, text=True, check=False).stdout
    have = re.search(r"\d+\.\d+", said)
    if have and numbers(have[0]) >= numbers(wanted):
        return None
    return f"they need Rust {wanted}, and {said.strip()} is here"


def numbers(version_text):
    return tuple(map(int, version_text.split(".")))


def loads_library():
    """Whether the loader looks for libflatc.so for a test that was built."""
    program = next(it for it in glob.glob("target/debug/deps/streams-*") if os.access(it, os.X_OK))
    env = os.environ | {"LD_TRACE_LOADED_OBJECTS": "1"}
    said = subprocess.run([os.path.abspath(program)], env=env, stdout=subprocess.PIPE, text=True, check=False).stdout
    return "libflatc.so.0" in said


def shared(tests):
    """All tests and examples, linked to libflatc.so."""
    tested(tests, "cargo test, shared", 70, FLATC_LIB_DIR=tests.folder, LD_LIBRARY_PATH=tests.folder)
    tests.tell("the shared library is loaded", loads_library())


def static(tests):
    """All tests and examples, linked to libflatc.a."""
    tested(tests, "cargo test, static", 70, FLATC_LIB_DIR=tests.folder, FLATC_STATIC="1")
    tests.tell("the static library is linked", not loads_library())


def refused_memory(tests):
    """Each allocation of a call refused, alone and with all later ones: the call returns that memory ran out."""
    shutil.copytree(CRATES, "crates", ignore=shutil.ignore_patterns("target"))
    os.makedirs("crates/flatc/examples")
    shutil.copy(f"{ROOT}/tests/rust_crates.rs", "crates/flatc/examples/rust_crates.rs")
    words = ("--package", "flatc", "--example", "rust_crates")
    succeeded(tests, "rust_crates.rs", "build", *words, folder="crates", FLATC_LIB_DIR=tests.folder, FLATC_STATIC="1")
    library = shim()
    for call, ended in CALLS.items():
        allocations = max(refuse_each(tests, library, call, ended, later) for later in ("", "+"))
        tests.tell(f"{call} allocates", (allocations > 0) == (call != "verify"), f"{allocations}")


def refuse_each(tests, library, call, ended, later):
    """Returns how many allocations of a call could be refused."""
    words = ["target/debug/examples/rust_crates", call]
    for wish in range(1, MOST):
        env = refusing(library, f"{wish}{later}", "count") | {"REFUSE_ARMED": "1"}
        ran = subprocess.run(words, env=env, stdout=subprocess.PIPE, text=True, timeout=60, check=False)
        refused = (content("count") or b"0 0").split()[1] != b"0"
        # a call may do without an allocation
        ends = {"out of memory", ended} if refused else {ended}
        last = ran.stdout.replace("armed\ndisarmed\n", "").strip()
        tests.tell(f"{call} without allocation {wish}{later}", last in ends, f"{ran}")
        if not refused:
            return wish - 1
    return MOST


def package(tests, prefix):
    """Lays the library out as make install does, in a folder whose path has a blank, and returns where flatc.pc is."""
    os.makedirs(f"{prefix}/lib/pkgconfig")
    for name in ("libflatc.a", "libflatc.so", "libflatc.so.0"):
        shutil.copy(f"{tests.folder}/{name}", f"{prefix}/lib/{name}")
    text = content(f"{ROOT}/flatc.pc.in").decode()
    quoted = prefix.replace(" ", "\\ ")
    for name, value in (("PREFIX", quoted), ("LIBDIR", "lib"), ("VERSION", version())):
        text = text.replace(f"@{name}@", value)
    write(f"{prefix}/lib/pkgconfig/flatc.pc", text.encode())
    return f"{prefix}/lib/pkgconfig"


def found(tests):
    """The library where pkg-config knows it."""
    if not shutil.which("pkg-config"):
        skipped("pkg-config", "apt-get install pkg-config")
        return
    prefix = os.path.abspath("usr local")
    flags = {"PKG_CONFIG_PATH": package(tests, prefix)}
    words = ("--test", "streams")
    tested(tests, "pkg-config, shared", 3, *words, LD_LIBRARY_PATH=f"{prefix}/lib", **flags)
    tested(tests, "pkg-config, static", 3, *words, FLATC_STATIC="1", **flags)
    os.remove(f"{prefix}/lib/libflatc.a")
    refused(tests, "no static library", "has no libflatc.a", FLATC_STATIC="1", **flags)
    write(f"{prefix}/lib/pkgconfig/flatc.pc", OLD_PC)
    refused(tests, "an old library", "0.1.0", **flags)


def refused(tests, what, why, **env):
    """A build that fails, and says why."""
    ran = cargo("build", "--package", "flatc-sys", **env)
    tests.tell(what, ran.returncode != 0 and "flatc-sys: " in ran.stdout and why in ran.stdout, ran.stdout[-900:])


def not_found(tests):
    os.mkdir("empty")
    empty = os.path.abspath("empty")
    refused(tests, "an empty folder", f"FLATC_LIB_DIR={empty} has no libflatc.so or", FLATC_LIB_DIR=empty)
    refused(tests, "an empty folder, static", "has no libflatc.a", FLATC_LIB_DIR=empty, FLATC_STATIC="1")
    refused(tests, "a relative path", "isn't an absolute path", FLATC_LIB_DIR="lib")
    refused(tests, "no library", "or set FLATC_LIB_DIR to the folder", PKG_CONFIG_LIBDIR=empty)
    refused(tests, "no pkg-config", "or set FLATC_LIB_DIR to the folder", PKG_CONFIG=f"{empty}/pkg-config")
    built = cargo("doc", "--no-deps", PKG_CONFIG_LIBDIR=empty, DOCS_RS="1", RUSTDOCFLAGS="-D warnings")
    tests.tell("docs without a library", built.returncode == 0, built.stdout[-900:])


def tidy(tests):
    """The sources as cargo's fmt and clippy want them, where these are installed."""
    if shutil.which("cargo-fmt"):
        succeeded(tests, "cargo fmt", "fmt", "--check")
    else:
        skipped("cargo fmt", "apt-get install rustfmt")
    if shutil.which("cargo-clippy"):
        words = ("--all-targets", "--", "-D", "warnings")
        succeeded(tests, "cargo clippy", "clippy", *words, FLATC_LIB_DIR=tests.folder)
    else:
        skipped("cargo clippy", "apt-get install rust-clippy")


def unsafe_blocks(tests):
    """Each unsafe block and implementation has a comment that says why it is sound."""
    count = 0
    for root, _, names in os.walk(CRATES):
        for name in names:
            lines = content(os.path.join(root, name)).decode().splitlines() if name.endswith(".rs") else []
            for at, line in enumerate(lines):
                if re.search(r"\bunsafe (\{|impl)", line) and not line.lstrip().startswith("//"):
                    count += 1
                    above = "\n".join(lines[max(0, at - 4) : at])
                    tests.tell(f"{name}:{at + 1}", "// SAFETY: " in above, "unsafe without SAFETY")
    tests.tell("unsafe blocks", 10 <= count <= 25, f"{count}")


def main():
    if len(sys.argv) != 2:
        sys.exit(__doc__)
    tests = Tests("rust_crates", "cargo")
    tests.folder = os.path.abspath(sys.argv[1])
    parts = [shared, static, refused_memory, found, not_found, tidy]
    if why := why_not():
        skipped("the crates", why)
        parts = []
    return tests.main([unsafe_blocks, *parts])


if __name__ == "__main__":
    sys.exit(main())
