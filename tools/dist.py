#!/usr/bin/env python3
"""Packs the program and the library for C, which are built, into dist/: a tarball with the program linked statically,
Debian packages where dpkg-deb is installed, and SHA256SUMS. The same commit and toolchain give the same bytes.

usage: tools/dist.py [FOLDER]
"""
import gzip
import hashlib
import os
import shlex
import shutil
import subprocess
import sys
import tempfile
from pathlib import Path

import build
from completions import completion
from command_help import Described
from debian import make_packages
from man_page import man_page
from version import version

ROOT = Path(__file__).resolve().parent.parent
# Sections that say which compiler made a file.
UNNEEDED = ["-R", ".comment", "-R", ".note"]
OBJECT = ROOT / "crates/flatc/out/flatc.o"
PROGRAM = ROOT / "crates/flatc/out/flatc"
CC = shlex.split(os.environ.get("CC", "cc"))
TEXTS = ("docs", "examples", "bindings")
COMPLETIONS = {"bash": "bash-completion/completions/{}", "fish": "fish/vendor_completions.d/{}.fish"}


def output(*words):
    return subprocess.run(words, check=True, capture_output=True, text=True, cwd=ROOT).stdout.strip()


def write(path, text, mode=0o644):
    path.parent.mkdir(parents=True, exist_ok=True)
    path.write_text(text, encoding="utf-8")
    path.chmod(mode)


def copy(source, to, mode=0o644):
    to.parent.mkdir(parents=True, exist_ok=True)
    shutil.copyfile(source, to)
    to.chmod(mode)


def strip(path, *words):
    subprocess.run(["strip", *words, *UNNEEDED, str(path)], check=True)


def is_the_object():
    """Whether the object is there that the program was linked from."""
    if not OBJECT.exists():
        return False
    link = build.commands_of(build.read_crates(), "flatc")[1]
    with tempfile.TemporaryDirectory() as room:
        again = f"{room}/{PROGRAM.name}"
        subprocess.run([again if it == str(PROGRAM) else it for it in link], check=True)
        return Path(again).read_bytes() == PROGRAM.read_bytes()


def make_object():
    """Has the program's object. If rt ci kept the program, it left no object: the program is then built again."""
    if not is_the_object():
        for words in build.commands_of(build.read_crates(), "flatc"):
            subprocess.run(words, cwd=ROOT / "crates/flatc", check=True, stdout=subprocess.DEVNULL)


def link_static(to):
    """Links the program's object statically."""
    kit = Path(output("rt", "doc")).parent
    archives = [str(kit / "c/libos_c.a"), str(kit / "c/liblibc_c.a")]
    to.parent.mkdir(parents=True, exist_ok=True)
    subprocess.run([*CC, "-static-pie", "-Wl,--build-id=none", str(OBJECT), *archives, "-o", str(to)], check=True)


def lay_command(prefix, name, zsh_folder):
    """The program's man page and completions below a prefix."""
    described = Described.of(PROGRAM)
    share = prefix / "share"
    write(share / f"man/man1/{name}.1", man_page(described, name))
    for shell, path in {**COMPLETIONS, "zsh": f"zsh/{zsh_folder}/_{{}}"}.items():
        write(share / path.format(name), completion(described, shell, name))


def lay_library(prefix, name, libdir, at):
    """The headers, the library, and its files for pkg-config and CMake; `at` is what the prefix is for pkg-config."""
    libraries, said = prefix / libdir, version()
    for header in (ROOT / "include").iterdir():
        copy(header, prefix / "include" / header.name)
    copy(ROOT / "lib/libflatc.a", libraries / "libflatc.a")
    strip(libraries / "libflatc.a", "--strip-debug", "-D")
    copy(ROOT / f"lib/libflatc.so.{said}", libraries / f"libflatc.so.{said}")
    strip(libraries / f"libflatc.so.{said}", "--strip-unneeded")
    (libraries / "libflatc.so.0").symlink_to(f"libflatc.so.{said}")
    (libraries / "libflatc.so").symlink_to("libflatc.so.0")
    values = {"PREFIX": at, "LIBDIR": libdir, "VERSION": said, "MINOR": said.rpartition(".")[0], "NAME": name}
    values["UP"] = os.path.relpath(prefix, libraries)
    cmake = ("flatc-config.cmake", "flatc-config-version.cmake")
    templates = {"pkgconfig/flatc.pc": "flatc.pc.in"} | {f"cmake/flatc/{it}": f"packaging/{it}.in" for it in cmake}
    for path, template in templates.items():
        text = (ROOT / template).read_text(encoding="utf-8")
        for key, value in values.items():
            text = text.replace(f"@{key}@", value)
        write(libraries / path, text)


def lay_program(to, static):
    """The program, stripped."""
    if static:
        link_static(to)
    else:
        copy(PROGRAM, to)
    strip(to, "--strip-all")
    to.chmod(0o755)


def lay_texts(folder, *paths):
    """Files of the repository that are kept in it, below a folder."""
    for path in output("git", "ls-files", "--", *paths).splitlines():
        copy(ROOT / path, folder / path, 0o755 if os.access(ROOT / path, os.X_OK) else 0o644)


def commit():
    """The commit that is packed."""
    changed = output("git", "status", "--porcelain", "--untracked-files=no")
    return output("git", "rev-parse", "HEAD") + (" with changes that are not committed" if changed else "")


def build_info(root):
    """What the tarball says of how it was built."""
    lines = [f"flatc-proved {version()}", f"commit {commit()}", f"toolchain {output('rt', 'version')}"]
    for what, words in (("compiler", CC), ("linker", ["ld"])):
        lines.append(f"{what} {output(*words, '--version').splitlines()[0]}")
    lines += [f"libc {output('getconf', 'GNU_LIBC_VERSION')}, which is linked statically to bin/flatc", ""]
    lines += ["In a clone of the repository, on a machine with this toolchain, the same tarball is made by:", ""]
    lines += [f"    git checkout {output('git', 'rev-parse', 'HEAD')}", "    make build lib dist", ""]
    lines += ["`tools/same.sh TARBALL` does that and compares. SHA-256 sums:", ""]
    for path in sorted(it for it in root.rglob("*") if it.is_file() and not it.is_symlink()):
        lines.append(f"{hashlib.sha256(path.read_bytes()).hexdigest()}  {path.relative_to(root)}")
    return "\n".join(lines) + "\n"


def make_tarball(work, folder, epoch):
    """The tarball, with the command's own name."""
    top = f"flatc-proved-{version()}-x86_64-linux"
    root = work / top
    lay_program(root / "bin/flatc", static=True)
    lay_command(root, "flatc", "site-functions")
    lay_library(root, "flatc", "lib", "${pcfiledir}/../..")
    lay_texts(root / "share/doc/flatc-proved", "README.md", "CHANGELOG.md", "SECURITY.md", *TEXTS)
    lay_texts(root, "LICENSE*", "COPYING*")
    write(root / "BUILD-INFO", build_info(root))
    words = ["tar", "--sort=name", f"--mtime=@{epoch}", "--owner=0", "--group=0", "--numeric-owner", "--format=gnu"]
    tar = subprocess.run([*words, "-C", str(work), "-cf", "-", top], check=True, capture_output=True).stdout
    with open(folder / f"{top}.tar.gz", "wb") as it, gzip.GzipFile("", "wb", 9, it, mtime=0) as packed:
        packed.write(tar)


def make_debian(work, folder):
    """The packages for Debian, of one installed tree."""
    libdir = f"lib/{output(*CC, '-print-multiarch')}"
    usr = work / "debian/usr"
    lay_program(usr / "bin/flatc-proved", static=False)
    lay_command(usr, "flatc-proved", "vendor-completions")
    lay_library(usr, "flatc-proved", libdir, "/usr")
    lay_texts(usr / "share/doc", "README.md", *TEXTS)
    make_packages(ROOT, usr, libdir, version(), folder)


def main():
    folder = Path(*sys.argv[1:2] or [ROOT / "dist"]).absolute()
    os.umask(0o022)
    epoch = os.environ.setdefault("SOURCE_DATE_EPOCH", output("git", "log", "-1", "--format=%ct"))
    os.environ |= {"LC_ALL": "C", "TZ": "UTC"}
    make_object()
    folder.mkdir(parents=True, exist_ok=True)
    for it in [*folder.glob("*flatc*"), *folder.glob("SHA256SUMS")]:
        it.unlink()
    with tempfile.TemporaryDirectory() as work:
        make_tarball(Path(work), folder, epoch)
        if shutil.which("dpkg-deb") and shutil.which("dpkg-shlibdeps"):
            make_debian(Path(work), folder)
        else:
            print("no Debian packages: apt-get install dpkg-dev")
    sums = [f"{hashlib.sha256(it.read_bytes()).hexdigest()}  {it.name}\n" for it in sorted(folder.glob("*flatc*"))]
    write(folder / "SHA256SUMS", "".join(sums))
    print("".join(sums), end="")


if __name__ == "__main__":
    main()
