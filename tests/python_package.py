#!/usr/bin/env python3
"""The package for Python in bindings/python: its own tests, by each Python that is there; which library it loads; its
wheels, with and without the library, and the same bytes twice; its types, where mypy is installed; its version.

usage: tests/python_package.py FOLDER

FOLDER has libflatc.so. What isn't installed is skipped. The last line is 'N passed, M failed'.
"""
import glob
import os
import re
import shutil
import subprocess
import sys
import zipfile

from harness import ROOT, Tests, content, write

PACKAGE = os.path.join(ROOT, "bindings", "python")
MINORS = range(9, 16)
MODULES = {os.path.basename(it) for it in glob.glob(f"{PACKAGE}/flatc/*.py")} | {"py.typed"}
PLATFORM = "py3-none-manylinux_2_17_x86_64"
EPOCH = "1700000000"
WHERE = "import flatc._library as it; print(it._library._name)"


def run(words, env=None, **more):
    env = {"PATH": os.environ["PATH"], "HOME": os.getcwd(), "PYTHONDONTWRITEBYTECODE": "1", **(env or {})}
    more = {"capture_output": True, "text": True, "timeout": 600, "check": False, "stdin": subprocess.DEVNULL, **more}
    return subprocess.run(words, env=env, **more)


def skipped(what, why):
    print(f"python_package: {what}: skipped; {why}", flush=True)


def succeeded(tests, what, words, **more):
    """Runs words that have to succeed, and returns what they printed."""
    ran = run(words, **more)
    tests.tell(what, ran.returncode == 0, f"status {ran.returncode}: {(ran.stdout + ran.stderr)[-900:]}")
    return ran.stdout


def pythons():
    """Each Python from 3.9 that is there: what it calls itself, and its path."""
    paths = [sys.executable, *(shutil.which(f"python3.{it}") for it in MINORS), "/usr/bin/python3"]
    paths += [f"{it}/bin/python3" for it in glob.glob(f"{os.environ.get('PYENV_ROOT', '')}/versions/3.*")]
    ask = "import sys; print('.'.join(map(str, sys.version_info[:3])), int(sys.version_info >= (3, 9)))"
    found = {}
    for path in filter(os.path.exists, filter(None, paths)):
        version, _, good = run([path, "-c", ask]).stdout.strip().partition(" ")
        if good == "1":
            found.setdefault(version, path)
    return found


def unit_tests(tests, what, python, env):
    """The package's own tests; warnings are errors."""
    words = [python, "-W", "error", "-m", "unittest", "discover", "-s", f"{PACKAGE}/tests"]
    ran = run(words, env)
    count = re.search(r"^Ran (\d+) tests", ran.stderr, re.M)
    good = ran.returncode == 0 and count and int(count[1]) > 80
    tests.tell(f"unittest {what}", good, (ran.stdout + ran.stderr)[-3000:])


def units(tests):
    for version, python in pythons().items():
        unit_tests(tests, f"by Python {version}", python, {"PYTHONPATH": PACKAGE, "LIBFLATC": tests.library})


def loaded(python, path, env):
    """Which library a copy of the package loads."""
    return run([python, "-c", WHERE], {"PYTHONPATH": path, **env}).stdout.strip()


def libraries(tests):
    """The library in the package comes first, then that of LIBFLATC, then the loader's."""
    shutil.copytree(f"{PACKAGE}/flatc", "bare/flatc")
    os.mkdir("loader")
    os.symlink(tests.library, "loader/libflatc.so.0")
    loader, named = {"LD_LIBRARY_PATH": os.path.abspath("loader")}, {"LIBFLATC": tests.library}
    name = loaded(sys.executable, "bare", {**loader, "LIBFLATC": ""})
    tests.tell("the loader's library", name == "libflatc.so.0", name)
    name = loaded(sys.executable, "bare", {**loader, **named})
    tests.tell("the library of LIBFLATC", name == tests.library, name)
    packed = os.path.abspath("bare/flatc/libflatc.so.0")
    shutil.copyfile(tests.library, packed)
    name = loaded(sys.executable, os.path.abspath("bare"), named)
    tests.tell("the library in the package", name == packed, name)
    os.remove(packed)
    other = run([sys.executable, "-c", "import _ctypes; print(_ctypes.__file__)"]).stdout.strip()
    for path, what in (("missing.so", "missing.so: "), (other, "undefined symbol: flatc_version; set LIBFLATC")):
        said = run([sys.executable, "-c", "import flatc"], {"PYTHONPATH": "bare", "LIBFLATC": path}).stderr
        good = said.splitlines()[-1].startswith("ImportError: flatc: ") and what in said
        tests.tell(f"no library: {path}", good, said)
    write("bare/flatc/_version.py", b'__version__ = "0.99.0"\n')
    said = run([sys.executable, "-c", "import flatc"], {"PYTHONPATH": "bare", **named}).stderr
    tests.tell("a library of another version", "ImportError" in said and "needs 0.99.0" in said, said)


def builder():
    """A Python that can make wheels without a network."""
    ask = "import setuptools, pip; int(setuptools.__version__.split('.')[0]) > 70 or __import__('wheel')"
    return next((it for it in pythons().values() if run([it, "-c", ask]).returncode == 0), None)


def wheel(tests, python, folder, env, umask=0o022):
    """The wheel that is made of a copy of the package."""
    ignore = shutil.ignore_patterns("__pycache__", "build", "*.egg-info")
    shutil.copytree(PACKAGE, f"{folder}/python", ignore=ignore, dirs_exist_ok=True)
    for old in glob.glob(f"{folder}/*.whl"):
        os.remove(old)
    words = [python, "-m", "pip", "wheel", "--quiet", "--no-deps", "--no-build-isolation", "--no-index", "-w", folder]
    succeeded(tests, f"pip wheel in {folder}", [*words, f"{folder}/python"], env=env, umask=umask)
    return glob.glob(f"{folder}/*.whl")[0]


def installed(tests, python, made, folder):
    """Installs a wheel into a folder."""
    words = [python, "-m", "pip", "install", "--quiet", "--no-deps", "--no-index", "--target", folder, made]
    succeeded(tests, f"pip install of {os.path.basename(made)}", words)
    return os.path.abspath(folder)


def files_in(made):
    with zipfile.ZipFile(made) as it:
        return {os.path.basename(name) for name in it.namelist() if name.startswith("flatc/")}


def wheels(tests):
    python = builder()
    if not python:
        skipped("wheels", "apt-get install python3-pip python3-wheel")
        return
    with_library = {"FLATC_LIB_DIR": tests.folder, "SOURCE_DATE_EPOCH": EPOCH}
    made = wheel(tests, python, "first", with_library)
    tests.tell("its name", made.endswith(f"/flatc_proved-{version()}-{PLATFORM}.whl"), made)
    tests.tell("its files", files_in(made) == MODULES | {"libflatc.so.0"}, f"{files_in(made)}")
    again = wheel(tests, python, "second", {**with_library, "TZ": "Asia/Tokyo"}, umask=0o077)
    tests.tell("the same bytes twice", content(made) == content(again))
    folder = installed(tests, python, made, "full")
    name = loaded(python, folder, {"LIBFLATC": "missing.so"})
    tests.tell("its library is loaded", name == f"{folder}/flatc/libflatc.so.0", name)
    tests.tell("and has the same bytes", content(name) == content(tests.library))
    unit_tests(tests, "over the wheel", python, {"PYTHONPATH": folder})
    # where the first wheel was built, whose library may not be left in this one
    bare = wheel(tests, python, "first", {})
    tests.tell("the name without a library", bare.endswith(f"/flatc_proved-{version()}-py3-none-any.whl"), bare)
    tests.tell("the files without a library", files_in(bare) == MODULES, f"{files_in(bare)}")
    name = loaded(python, installed(tests, python, bare, "bare"), {"LIBFLATC": tests.library})
    tests.tell("then that of LIBFLATC is loaded", name == tests.library, name)


def types(tests):
    python = next((it for it in pythons().values() if run([it, "-c", "import mypy"]).returncode == 0), None)
    if not python:
        skipped("types", "pip install mypy")
        return
    write("use.py", b'import flatc\n\nreveal_type(flatc.Schema("").encode({}))\nflatc.Schema("").encode(5)\n')
    succeeded(tests, "mypy --strict", [python, "-m", "mypy", "--strict", "flatc"], cwd=PACKAGE)
    said = run([python, "-m", "mypy", "--strict", "use.py"], {"MYPYPATH": PACKAGE}).stdout
    good = "use.py:3: note: Revealed type is \"builtins.bytes\"" in said and "use.py:4: error" in said
    tests.tell("the types of a call", good, said)


def version():
    return re.search(r'__version__ = "(.*)"', content(f"{PACKAGE}/flatc/_version.py").decode())[1]


def versions(tests):
    header = content(f"{ROOT}/include/flatc.h").decode()
    wanted = re.search(r'FLATC_VERSION_STRING "(.*)"', header)[1]
    tests.tell("the version", version() == wanted, f"{version()}, and not {wanted}")


def main():
    if len(sys.argv) != 2:
        sys.exit(__doc__)
    tests = Tests("python_package", None)
    tests.folder = os.path.abspath(sys.argv[1])
    tests.library = f"{tests.folder}/libflatc.so"
    return tests.main((versions, units, libraries, wheels, types))


if __name__ == "__main__":
    sys.exit(main())
