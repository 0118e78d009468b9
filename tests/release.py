#!/usr/bin/env python3
"""What make dist makes of the built program and library: the same bytes twice, the tarball used where it is unpacked
and in an empty root, the Debian packages installed and removed in a root of their own, and tools/same.sh.

usage: tests/release.py

What isn't installed is skipped. The last line is 'N passed, M failed'.
"""
import glob
import hashlib
import os
import re
import shutil
import subprocess
import sys

from harness import ROOT, Tests, content, write

sys.path.append(f"{ROOT}/tools")

from version import version  # noqa: E402

TOP = f"flatc-proved-{version()}-x86_64-linux"
EXAMPLES = os.path.join(ROOT, "examples")
SCHEMA, JSON = f"{EXAMPLES}/monster.fbs", f"{EXAMPLES}/monster.json"
# What the owner settles: who holds the copyright, and that no bug of Debian asks for the package.
OWNERS = {"copyright-without-copyright-notice", "initial-upload-closes-no-bugs"}
PACKED = """\
BUILD-INFO bin/flatc include/flatc.h include/flatc.hpp lib/cmake/flatc/flatc-config-version.cmake
lib/cmake/flatc/flatc-config.cmake lib/libflatc.a lib/libflatc.so lib/libflatc.so.0 lib/libflatc.so.{version}
lib/pkgconfig/flatc.pc share/bash-completion/completions/flatc share/fish/vendor_completions.d/flatc.fish
share/man/man1/flatc.1 share/zsh/site-functions/_flatc
"""
CMAKE = f"""\
cmake_minimum_required(VERSION 3.16)
project(app C)
find_package(flatc {version()} REQUIRED)
add_executable(shared {EXAMPLES}/c/convert.c)
target_link_libraries(shared PRIVATE flatc::flatc)
add_executable(static {EXAMPLES}/c/convert.c)
target_link_libraries(static PRIVATE flatc::flatc_static)
flatc_binary("${{CMAKE_CURRENT_BINARY_DIR}}/monster.bin" {SCHEMA} {JSON})
add_custom_target(data ALL DEPENDS "${{CMAKE_CURRENT_BINARY_DIR}}/monster.bin")
"""
# A make that builds nothing: it takes what is built here, and packs it in the folder that is named by -C.
MAKE = f"""\
#!/bin/sh
mkdir -p "$2/crates/flatc/out" "$2/lib"
cp {ROOT}/crates/flatc/out/flatc {ROOT}/crates/flatc/out/flatc.o "$2/crates/flatc/out/"
cp -P {ROOT}/lib/* "$2/lib/"
exec make -C "$2" -o build -o lib dist
"""


# make dist builds the program again where rt ci kept it, and left no object.
SECONDS = 3600


def run(words, **more):
    return subprocess.run(words, stdout=subprocess.PIPE, stderr=subprocess.STDOUT, text=True, timeout=SECONDS, **more)


def skipped(what, why):
    print(f"release: {what}: skipped; {why}", flush=True)


def succeeded(tests, what, words, **more):
    """Runs words that have to succeed, and returns what they printed."""
    done = run(words, **more)
    tests.tell(what, done.returncode == 0, f"status {done.returncode}: {done.stdout[-900:]}")
    return done.stdout


def sum_of(path):
    return hashlib.sha256(content(path)).hexdigest()


def sums_in(text):
    return {path: given for given, path in re.findall(r"^([0-9a-f]{64})  (\S+)$", text, re.M)}


def twice(tests):
    """The same bytes in another folder, of a copy of the repository, and with other settings."""
    shutil.copytree(ROOT, "copy", symlinks=True, ignore=shutil.ignore_patterns("out", "dist", "target", "__pycache__"))
    os.makedirs("copy/crates/flatc/out")
    for path in ("crates/flatc/out/flatc", "crates/flatc/out/flatc.o"):
        shutil.copy(f"{ROOT}/{path}", f"copy/{path}")
    other = {**os.environ, "TZ": "Asia/Tokyo", "LC_ALL": "C.UTF-8"}
    words = ["sh", "-c", "umask 077; exec make --silent -C copy -o build -o lib dist"]
    succeeded(tests, "make dist in another folder", words, env=other)
    names = sorted(os.listdir(tests.dist))
    tests.tell("the same files", names == sorted(os.listdir("copy/dist")) and f"{TOP}.tar.gz" in names, f"{names}")
    for name in names:
        tests.tell(f"the same bytes of {name}", content(f"copy/dist/{name}") == content(f"{tests.dist}/{name}"))
    sums = sums_in(content(f"{tests.dist}/SHA256SUMS").decode())
    want = {name: sum_of(f"{tests.dist}/{name}") for name in names if name != "SHA256SUMS"}
    tests.tell("SHA256SUMS", sums == want, f"{sums}")


def unpacked(tests):
    run(["tar", "-xzf", f"{tests.dist}/{TOP}.tar.gz"], check=True)
    return os.path.abspath(TOP)


def tarball(tests):
    """What is in the tarball, and the library used from where it is unpacked."""
    root = unpacked(tests)
    files = {os.path.relpath(os.path.join(at, it), root) for at, _, names in os.walk(root) for it in names}
    texts = {it for it in files if it.startswith("share/doc/flatc-proved/")}
    packed = "README.md CHANGELOG.md SECURITY.md docs examples bindings".split()
    kept = run(["git", "ls-files", *packed], cwd=ROOT).stdout
    want = {f"share/doc/flatc-proved/{it}" for it in kept.splitlines()}
    tests.tell("the texts and examples", texts == want, f"{texts ^ want}")
    licences = {os.path.basename(it) for it in glob.glob(f"{ROOT}/LICENSE*") + glob.glob(f"{ROOT}/COPYING*")}
    want = set(PACKED.format(version=version()).split()) | licences
    tests.tell("what else is packed", files - texts == want, f"{(files - texts) ^ want}")
    info = content(f"{root}/BUILD-INFO").decode()
    sums = sums_in(info)
    want = {it: sum_of(f"{root}/{it}") for it in files if it != "BUILD-INFO" and not os.path.islink(f"{root}/{it}")}
    tests.tell("the sums of BUILD-INFO", sums == want, f"{set(sums) ^ set(want)}")
    head = run(["git", "rev-parse", "HEAD"], cwd=ROOT).stdout.strip()
    tests.tell("the commit of BUILD-INFO", f"\ncommit {head}" in info, info[:300])
    compiled(tests, "the tarball", root, "lib", root)


def static_program(tests):
    """The tarball's program needs nothing of the machine that it runs on."""
    root = unpacked(tests)
    headers = succeeded(tests, "readelf", ["readelf", "-ld", f"{root}/bin/flatc"])
    tests.tell("no loader and no library", "INTERP" not in headers and "NEEDED" not in headers, headers)
    said = succeeded(tests, "the example", [f"{ROOT}/tests/example.sh", f"{root}/bin/flatc"])
    tests.tell("it is shown at work", said == content(f"{ROOT}/tests/example.stdout").decode(), said)
    os.mkdir("empty")
    for path in (f"{root}/bin/flatc", SCHEMA, JSON):
        shutil.copy(path, "empty")
    words = ["chroot", "empty"] if os.geteuid() == 0 else ["unshare", "--map-root-user", "chroot", "empty"]
    if run([*words, "/flatc", "--version"]).returncode == 126:
        skipped("an empty root", "it takes root, or name spaces for users")
        return
    succeeded(tests, "binary in an empty root", [*words, "/flatc", "binary", "/monster.fbs", "/monster.json", "/m"])
    want = bytes.fromhex("".join(content(f"{ROOT}/tests/monster.hex").decode().split()))
    tests.tell("the buffer from there", content("empty/m") == want, f"{content('empty/m')}")


def ran(tests, what, program, libraries):
    """A build of the C example, which prints the monster."""
    env = {**os.environ, "LD_LIBRARY_PATH": libraries}
    said = succeeded(tests, f"{what} runs", [program, SCHEMA, JSON, "monster.bin"], env=env)
    tests.tell(f"{what} prints", said == content(f"{ROOT}/tests/monster.printed.json").decode(), said)


def compiled(tests, what, prefix, libdir, at):
    """The C example over an installed library, by pkg-config and by CMake; `at` is where the packages' root is."""
    libraries = f"{prefix}/{libdir}"
    if shutil.which("pkg-config"):
        env = {**os.environ, "PKG_CONFIG_LIBDIR": f"{libraries}/pkgconfig"}
        env |= {} if at == prefix else {"PKG_CONFIG_SYSROOT_DIR": at}
        words = ["pkg-config", "--cflags", "--libs", f"flatc = {version()}"]
        flags = succeeded(tests, f"{what}: pkg-config", words, env=env).split()
        paths = [os.path.normpath(it[2:]) for it in flags]
        tests.tell(f"{what}: the flags", {f"{prefix}/include", libraries} <= {*paths}, f"{flags}")
        succeeded(tests, f"{what}: cc", ["cc", f"{EXAMPLES}/c/convert.c", *flags, "-o", "convert"])
        ran(tests, f"{what}: the example", "./convert", libraries)
    else:
        skipped(f"{what}: pkg-config", "apt-get install pkg-config")
    if not shutil.which("cmake"):
        skipped(f"{what}: CMake", "apt-get install cmake")
        return
    os.makedirs("app", exist_ok=True)
    write("app/CMakeLists.txt", CMAKE.encode())
    shutil.rmtree("made", ignore_errors=True)
    succeeded(tests, f"{what}: cmake", ["cmake", "-S", "app", "-B", "made", f"-DCMAKE_PREFIX_PATH={prefix}"])
    succeeded(tests, f"{what}: cmake --build", ["cmake", "--build", "made"])
    ran(tests, f"{what}: CMake's shared", "made/shared", libraries)
    ran(tests, f"{what}: CMake's static", "made/static", "")
    want = bytes.fromhex("".join(content(f"{ROOT}/tests/monster.hex").decode().split()))
    tests.tell(f"{what}: CMake's buffer", content("made/monster.bin") == want, f"{content('made/monster.bin')}")


def cmake_versions(tests):
    """Which versions find_package takes: those of the same minor version that aren't later."""
    if not shutil.which("cmake"):
        skipped("versions for CMake", "apt-get install cmake")
        return
    root = unpacked(tests)
    major, minor, patch = map(int, version().split("."))
    asked = {"": True, f"{major}.{minor}": True, version(): True, f"{version()} EXACT": True}
    asked |= {f"{major}.{minor + 1}": False, f"{major}.{minor}.{patch + 1}": False, f"{major + 1}.{minor}": False}
    asked |= {f"{major}.{minor - 1}": False} if minor else {}
    os.mkdir("asks")
    for words, good in asked.items():
        write("asks/CMakeLists.txt", f"cmake_minimum_required(VERSION 3.16)\nproject(a NONE)\n"
                                     f"find_package(flatc {words} REQUIRED)\n".encode())
        shutil.rmtree("asked", ignore_errors=True)
        done = run(["cmake", "-S", "asks", "-B", "asked", f"-DCMAKE_PREFIX_PATH={root}"])
        tests.tell(f"find_package(flatc {words})", (done.returncode == 0) == good, done.stdout)


def packages(tests):
    """The Debian packages, installed and removed in a root of their own."""
    debs = sorted(glob.glob(f"{tests.dist}/*.deb"))
    if not debs:
        skipped("Debian packages", "apt-get install dpkg-dev")
        return
    tests.tell("three packages", len(debs) == 3, f"{debs}")
    root = os.path.abspath("root")
    os.makedirs(f"{root}/var/lib/dpkg")
    # the packages that these need aren't in that root
    dpkg = ["dpkg", f"--root={root}", "--force-depends", "--force-not-root", "--force-script-chrootless"]
    succeeded(tests, "dpkg --install", [*dpkg, "--install", *debs])
    program = f"{root}/usr/bin/flatc-proved"
    tests.tell("its version", version() in succeeded(tests, "flatc-proved", [program, "--version"]))
    tests.tell("no other flatc", not os.path.lexists(f"{root}/usr/bin/flatc"))
    if shutil.which("man"):
        env = {**os.environ, "MANPAGER": "cat", "MANWIDTH": "100"}
        page = succeeded(tests, "man flatc-proved", ["man", "-M", f"{root}/usr/share/man", "flatc-proved"], env=env)
        tests.tell("its man page", "flatc-proved conform [OPTIONS] OLD NEW" in re.sub(".\b", "", page), page[:900])
    else:
        skipped("man flatc-proved", "apt-get install man-db")
    libdir = run(["cc", "-print-multiarch"]).stdout.strip()
    compiled(tests, "the packages", f"{root}/usr", f"lib/{libdir}", root)
    succeeded(tests, "dpkg --purge", [*dpkg, "--purge", "flatc-proved", "libflatc-dev", "libflatc0"])
    left = [os.path.join(at, it) for at, _, names in os.walk(f"{root}/usr") for it in names]
    tests.tell("nothing is left of them", not left, f"{left}")


def linted(tests):
    if not shutil.which("lintian"):
        skipped("lintian", "apt-get install lintian")
        return
    debs = sorted(glob.glob(f"{tests.dist}/*.deb"))
    lines = run(["lintian", "--allow-root", "--tag-display-limit", "0", *debs]).stdout.splitlines()
    others = [it for it in lines if not any(f": {tag}" in it for tag in OWNERS)]
    tests.tell("lintian", not others, "\n".join(others))


def same(tests):
    """tools/same.sh over the tarball, over one with another program, and over one of another commit or toolchain."""
    info = content(f"{unpacked(tests)}/BUILD-INFO").decode()
    if "not committed" in info:
        skipped("tools/same.sh", "there are changes that are not committed")
        return
    write("make", MAKE.encode())
    os.chmod("make", 0o755)
    env = {**os.environ, "MAKE": os.path.abspath("make")}
    script = f"{ROOT}/tools/same.sh"
    said = succeeded(tests, "the same", [script, f"{tests.dist}/{TOP}.tar.gz"], env=env)
    tests.tell("same.sh says so", "\nthe same: " in f"\n{said}", said)
    commit = re.search(r"\ncommit \w+", info)[0]
    changes = {
        "bin/flatc differ": ("bin/flatc", content(f"{TOP}/bin/flatc") + b"\0"),
        "doesn't have the commit": ("BUILD-INFO", info.replace(commit, f"\ncommit {'0' * 40}").encode()),
        "names no commit": ("BUILD-INFO", info.replace(commit, f"{commit} and more").encode()),
        "it was built by": ("BUILD-INFO", info.replace("\ntoolchain ", "\ntoolchain other ").encode()),
    }
    for told, (path, text) in changes.items():
        unpacked(tests)
        write(f"{TOP}/{path}", text)
        run(["tar", "-czf", "other.tar.gz", TOP], check=True)
        done = run([script, "other.tar.gz"], env=env)
        tests.tell(f"same.sh says: {told}", done.returncode == 1 and told in done.stdout, done.stdout)


def main():
    if len(sys.argv) != 1:
        sys.exit(__doc__)
    tests = Tests("release", None)
    tests.dist = f"{ROOT}/dist"
    made = run(["make", "--silent", "-C", ROOT, "-o", "build", "-o", "lib", "dist"])
    tests.tell("make dist", made.returncode == 0, made.stdout)
    return tests.main((twice, tarball, cmake_versions, static_program, packages, linted, same))


if __name__ == "__main__":
    sys.exit(main())
