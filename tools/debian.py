"""Makes the Debian packages flatc-proved, libflatc0 and libflatc-dev of one installed tree, by dpkg-deb. What their
control files say by hand is in packaging/debian."""
import gzip
import hashlib
import os
import re
import shutil
import subprocess
import tempfile
import time

MAINTAINER = "Kombultei maintainers <maintainers@users.noreply.kombultei.example>"
# What of the tree goes to each package, as patterns over paths below usr.
CONTENTS = {
    "flatc-proved": ["bin/*", "share/man/**/*", "share/bash-completion/**/*", "share/zsh/**/*", "share/fish/**/*"],
    "libflatc-dev": ["include/*", "@LIBDIR@/libflatc.a", "@LIBDIR@/libflatc.so", "@LIBDIR@/*/**/*"],
    "libflatc0": ["@LIBDIR@/libflatc.so.*"],
}
DOCUMENTS = {
    "flatc-proved": ["README.md", "docs/*", "examples/*.*", "examples/refused/*", "examples/hooks/*", "examples/ci/*"],
    "libflatc-dev": ["examples/c/*", "examples/cpp/*", "bindings/**/*"],
}


def move(source, to):
    to.parent.mkdir(parents=True, exist_ok=True)
    os.rename(source, to)


def write_packed(path, data):
    path.parent.mkdir(parents=True, exist_ok=True)
    with open(path, "wb") as it, gzip.GzipFile("", "wb", 9, it, mtime=0) as packed:
        packed.write(data)


def files_of(folder):
    return [it for it in sorted(folder.rglob("*")) if it.is_symlink() or it.is_file()]


def split(package, usr, libdir, root):
    """Moves a package's files from the installed tree to a tree of its own."""
    patterns = [it.replace("@LIBDIR@", libdir) for it in CONTENTS[package]]
    patterns += [f"share/doc/{it}" for it in DOCUMENTS.get(package, [])]
    for source in dict.fromkeys(found for pattern in patterns for found in sorted(usr.glob(pattern))):
        if source.is_file() or source.is_symlink():
            inner = str(source.relative_to(usr)).replace("share/doc/", f"share/doc/{package}/")
            move(source, root / "usr" / inner)


def add_documents(root, package, version, texts):
    """The changelogs and the copyright file; man pages are packed, as the policy has it."""
    when = time.strftime("%a, %d %b %Y %H:%M:%S +0000", time.gmtime(int(os.environ["SOURCE_DATE_EPOCH"])))
    head = f"flatc-proved ({version}-1) unstable; urgency=medium"
    entry = f"{head}\n\n  * Release {version}.\n\n -- {MAINTAINER}  {when}\n"
    folder = root / "usr/share/doc" / package
    write_packed(folder / "changelog.Debian.gz", entry.encode())
    write_packed(folder / "changelog.gz", (texts / "CHANGELOG.md").read_bytes())
    licence = next(iter(sorted(texts.glob("LICEN[CS]E*")) + sorted(texts.glob("COPYING*"))), None)
    shutil.copyfile(licence or texts / "packaging/debian/copyright", folder / "copyright")
    for page in root.glob("usr/share/man/man1/*.1"):
        write_packed(page.with_suffix(".1.gz"), page.read_bytes())
        page.unlink()


def shared_depends(root):
    """The packages of the shared libraries that a tree's programs and libraries need."""
    programs = [str(it) for it in files_of(root) if not it.is_symlink() and it.read_bytes()[:4] == b"\x7fELF"]
    if not programs:
        return []
    with tempfile.TemporaryDirectory() as folder:
        os.mkdir(f"{folder}/debian")
        with open(f"{folder}/debian/control", "w", encoding="ascii") as it:
            it.write("Source: flatc-proved\n\nPackage: any\nArchitecture: any\n")
        words = ["dpkg-shlibdeps", "-O", *programs]
        said = subprocess.run(words, cwd=folder, check=True, capture_output=True, text=True).stdout
    return re.findall(r"shlibs:Depends=(.+)", said)


def control(root, package, version, texts):
    """The text of a package's control file."""
    own = (texts / f"packaging/debian/{package}.control").read_text(encoding="utf-8").replace("@VERSION@", version)
    size = sum(1 if it.is_symlink() else -(-it.stat().st_size // 1024) for it in files_of(root / "usr"))
    depends = shared_depends(root)
    words = ["dpkg", "--print-architecture"]
    fields = {"Package": package, "Source": "flatc-proved", "Version": f"{version}-1", "Priority": "optional"}
    fields |= {"Architecture": subprocess.run(words, check=True, capture_output=True, text=True).stdout.strip()}
    fields |= {"Maintainer": MAINTAINER, "Installed-Size": size}
    fields |= {"Depends": depends[0]} if depends else {}
    return "".join(f"{key}: {value}\n" for key, value in fields.items()) + own


def make_package(package, root, version, texts, folder):
    add_documents(root, package, version, texts)
    sums = "".join(f"{hashlib.md5(it.read_bytes()).hexdigest()}  {it.relative_to(root)}\n"
                   for it in files_of(root / "usr") if not it.is_symlink())
    parts = {"control": control(root, package, version, texts), "md5sums": sums}
    if package == "libflatc0":
        parts |= {"shlibs": f"libflatc 0 libflatc0 (>= {version})\n", "triggers": "activate-noawait ldconfig\n"}
    for part, text in parts.items():
        (root / "DEBIAN").mkdir(exist_ok=True)
        (root / "DEBIAN" / part).write_text(text, encoding="utf-8")
    for it in [root, *root.rglob("*")]:
        os.utime(it, (int(os.environ["SOURCE_DATE_EPOCH"]),) * 2, follow_symlinks=False)
    words = ["dpkg-deb", "--root-owner-group", "-Zxz", "--build", str(root), str(folder)]
    subprocess.run(words, check=True, stdout=subprocess.DEVNULL, env={**os.environ, "DPKG_DEB_THREADS_MAX": "1"})


def make_packages(texts, usr, libdir, version, folder):
    """Makes the packages of the tree usr, whose library is in libdir; `texts` is the repository."""
    for package in CONTENTS:
        root = usr.parent / package
        split(package, usr, libdir, root)
        make_package(package, root, version, texts, folder)
    left = files_of(usr)
    if left:
        raise SystemExit(f"in no package: {left}")
