#!/usr/bin/env python3
"""The library for C as it is built: what it exports, the headers, calls that go wrong, growths that are refused, long
JSON texts, what is installed, the wrapper for C++, the examples in C and C++, and the programs of docs/LIBRARY.md.
tests/python_package.py and tests/rust_crates.py test the package for Python and the crates for Rust.

usage: tests/library.py FOLDER PROGRAM
       tests/library.py FOLDER --valgrind

FOLDER has libflatc.a and libflatc.so; PROGRAM is the command flatc, whose version and explanations are the library's.
A C and a C++ compiler have to be there (cc, c++, or what CC and CXX name), and pkg-config's file is read by hand. Rust
and Google's FlatBuffers are used where they are installed. With --valgrind only the C example is run, under
valgrind. The last line is 'N passed, M failed'.
"""
import ctypes
import os
import re
import shlex
import shutil
import subprocess
import sys
from concurrent.futures import ThreadPoolExecutor

import long_texts
from harness import ROOT, Tests, content, write
from hostile import refusing, shim
from rust_crates import why_not

INCLUDE = os.path.join(ROOT, "include")
EXAMPLES = os.path.join(ROOT, "examples")
PYTHON = os.path.join(ROOT, "bindings", "python")
SCHEMA, JSON = os.path.join(EXAMPLES, "monster.fbs"), os.path.join(EXAMPLES, "monster.json")
WRONG = b'{\n  "name": "Orc",\n  "hp": 70000\n}\n'
OK, NO_MEMORY = 0, 2
# The calls that take memory, and those that take none.
GROWING = ("schema_parse", "schema_share", "encode", "decode", "fault_message", "explain")
STILL = ("verify", "conform")
MOST = 20_000
HEADERS = [
    ("C99", "c", "CC", ["-std=c99"], "flatc.h"),
    ("C11", "c", "CC", ["-std=c11"], "flatc.h"),
    ("C++11", "c++", "CXX", ["-std=c++11"], "flatc.h"),
    ("C++17", "c++", "CXX", ["-std=c++17"], "flatc.hpp"),
    ("C++20", "c++", "CXX", ["-std=c++20"], "flatc.hpp"),
]
STRICT = ["-pedantic", "-Wall", "-Wextra", "-Werror"]
SANITIZERS = ["-fsanitize=address,undefined", "-fno-sanitize-recover=all"]
FLATBUFFERS = "/usr/include/flatbuffers/flatbuffers.h"


def compiler(variable, usual):
    return shlex.split(os.environ.get(variable) or usual)


def done(words, **more):
    more.setdefault("stdin", subprocess.DEVNULL)
    return subprocess.run(words, capture_output=True, text=True, timeout=600, check=False, **more)


def skipped(what, why):
    print(f"library: {what}: skipped; {why}", flush=True)


def succeeded(tests, what, words, **more):
    """Runs words that have to succeed, and returns what they printed, or None."""
    ran = done(words, **more)
    tests.tell(what, ran.returncode == 0, f"status {ran.returncode}: {(ran.stdout + ran.stderr)[-600:]}")
    return ran.stdout if ran.returncode == 0 else None


def built(tests, source, to, usual="cc", variable="CC", flags=()):
    """Compiles a source file and links the static library to it."""
    words = [*compiler(variable, usual), "-O1", *STRICT, f"-I{INCLUDE}", source, *flags]
    words += [f"{tests.folder}/libflatc.a", "-o", to]
    return succeeded(tests, f"{os.path.basename(source)} compiles", words) is not None


def headers(tests):
    for standard, usual, variable, flags, header in HEADERS:
        source = f"header.{'c' if usual == 'c' else 'cpp'}"
        write(source, f"#include <{header}>\nint main(void) {{ return 0; }}\n".encode())
        words = [*compiler(variable, "cc" if usual == "c" else "c++"), *flags, *STRICT]
        succeeded(tests, f"{header} as {standard}", [*words, f"-I{INCLUDE}", "-c", source, "-o", "header.o"])


def declared():
    """The calls that the header declares, and its version."""
    header = content(os.path.join(INCLUDE, "flatc.h")).decode()
    calls = set(re.findall(r"\b(flatc_[a-z_]+)\(", re.sub(r"/\*.*?\*/", "", header, flags=re.S)))
    numbers = [int(re.search(rf"FLATC_VERSION_{part} (\d+)", header)[1]) for part in ("MAJOR", "MINOR", "PATCH")]
    return calls, numbers, re.search(r'FLATC_VERSION_STRING "(.*)"', header)[1]


def exports(tests):
    calls, numbers, version = declared()
    shared = f"{tests.folder}/libflatc.so"
    symbols = succeeded(tests, "nm", ["nm", "-D", "--defined-only", shared]) or ""
    names = {line.split()[2] for line in symbols.splitlines()}
    tests.tell("the library exports what the header declares", names == calls, f"{sorted(names ^ calls)}")
    tests.tell("the version's parts are its text", ".".join(map(str, numbers)) == version, version)
    tests.tell("the program's version", tests.run(["--version"]).stdout.decode().split()[-1] == version, version)
    flags = {"LIBFLATC": shared, "PYTHONPATH": PYTHON, "PYTHONDONTWRITEBYTECODE": "1"}
    ask = "import flatc; print('.'.join(map(str, flatc.version())))"
    said = succeeded(tests, "flatc_version", [sys.executable, "-c", ask], env={**os.environ, **flags})
    tests.tell("the library's version", said == f"{version}\n", f"{said}")


def c_example(tests):
    if not built(tests, f"{EXAMPLES}/c/convert.c", "convert", flags=["-std=c99"]):
        return
    text = succeeded(tests, "convert", ["./convert", SCHEMA, JSON, "orc.bin"])
    printed = content(os.path.join(ROOT, "tests", "monster.printed.json")).decode()
    tests.tell("convert prints the monster", text == printed, f"{text}")
    want = bytes.fromhex("".join(content(os.path.join(ROOT, "tests", "monster.hex")).decode().split()))
    tests.tell("convert writes the buffer", content("orc.bin") == want, f"{content('orc.bin')}")
    write("wrong.json", WRONG)
    ran = done(["./convert", SCHEMA, "wrong.json", "orc.bin"])
    tests.tell("convert refuses", ran.returncode == 1 and not ran.stdout, f"{ran}")
    told = tests.run(["binary", "--explain", SCHEMA, "wrong.json", "out.bin"]).stderr.decode().partition("\n")[2]
    lines, want = ran.stderr.partition("\n")[2], told.replace("wrong.json:", "JSON:")
    tests.tell("its lines are those of --explain", lines == want != "", f"{lines}, {told}")


def c_message(tests):
    """A buffer of 28 bytes: the root's offset, a vtable and its padding, a table with one reference, and the text."""
    if built(tests, f"{EXAMPLES}/c/message.c", "message", flags=["-std=c99"]):
        said = succeeded(tests, "message", ["./message"]) or ""
        first, second, lines = said.partition("\n72 OutOfRange\n")
        tests.tell("message converts, and shows a refusal", first == "28 bytes" and second and "70000" in lines, said)


def counted(tests):
    """tests/library.c, linked so that it counts blocks of the heap."""
    wraps = [f"-Wl,--wrap={call}" for call in ("malloc", "realloc", "free")]
    return built(tests, os.path.join(ROOT, "tests", "library.c"), "library", flags=wraps)


def misuse(tests):
    if not counted(tests):
        return
    for line in (succeeded(tests, "calls that go wrong", ["./library", "misuse"]) or "").splitlines():
        good, _, what = line.partition(" ")
        if good != "fault":
            tests.tell(what, good == "ok", "not so")


def refuse_each(tests, library, call):
    """Each growth of a call refused, alone and with all later ones."""
    total = 0
    for later in ("", "+"):
        for wish in range(1, MOST):
            counts = f"{call}{wish}{later}.count"
            env = refusing(library, f"{wish}{later}", counts) | {"REFUSE_ARMED": "1"}
            ran = done(["./library", call, SCHEMA, JSON], env=env)
            asked, refused = map(int, content(counts).split())
            found = re.fullmatch(r"armed\ndisarmed\nfirst (\d) full (\d)\nsecond (\d) left (-?\d+)\n", ran.stdout)
            first, full, second, left = map(int, found.groups()) if found else (-1, -1, -1, -1)
            ends = ((NO_MEMORY, 0), (OK, 1)) if refused else ((OK, 1),)
            good = second == OK and left == 0 and (first, full) in ends
            tests.tell(f"{call} without growth {wish}{later}", good, f"status {ran.returncode}, {ran.stdout!r}")
            if not refused or not found:
                break
            total = max(total, asked)
    return total


def growths(tests):
    if not counted(tests):
        return
    library = shim()
    with ThreadPoolExecutor(os.cpu_count()) as pool:
        totals = [*pool.map(lambda call: refuse_each(tests, library, call), GROWING)]
    print("library: growths: " + ", ".join(f"{call} {total}" for call, total in zip(GROWING, totals)))
    for call, total in zip(GROWING, totals):
        tests.tell(f"{call} takes memory", total > 0)
    for call in STILL:
        ran = done(["./library", call, SCHEMA, JSON], env=refusing(library, "1+", "count") | {"REFUSE_ARMED": "1"})
        want = "armed\ndisarmed\nfirst 0 full 0\nsecond 0 left 0\n"
        tests.tell(f"{call} takes no memory", ran.stdout == want and content("count").split()[0] == b"0", f"{ran}")


def cpp_example(tests):
    generator = shutil.which("flatc")
    if not generator or not os.path.exists(FLATBUFFERS):
        skipped("the C++ example", "apt-get install libflatbuffers-dev flatbuffers-compiler")
        return
    succeeded(tests, "Google's flatc", [generator, "--cpp", SCHEMA])
    # the generated code has warnings of its own
    words = [*compiler("CXX", "c++"), "-std=c++17", "-O1", f"-I{INCLUDE}", "-I.", f"{EXAMPLES}/cpp/monsters.cpp"]
    words += [f"{tests.folder}/libflatc.a", "-pthread", "-o", "monsters"]
    if succeeded(tests, "monsters.cpp compiles", words) is None:
        return
    said = succeeded(tests, "monsters", ["./monsters", SCHEMA, JSON]) or ""
    first = "Orc: hp 300, z -3, 2 weapons, casts fog\n"
    elf = '{\n  "name": "Elf",\n  "at": {\n    "x": 4,\n    "y": 5,\n    "z": 6\n  },\n  "hp": 7\n}\n'
    rest = "four threads: the same\n72 OutOfRange, slot 2\n"
    tests.tell("what it prints", said.startswith(first + elf + rest) and "JSON:1:" in said, said)


def fault_numbers(tests):
    """The constants of the header are the numbers of all faults but those of memory, with their names."""
    header = content(os.path.join(INCLUDE, "flatc.h")).decode()
    constants = {int(number): name for name, number in re.findall(r"#define FLATC_FAULT_(\w+) (\d+)u", header)}
    library = ctypes.CDLL(f"{tests.folder}/libflatc.so")
    library.flatc_fault_name.restype = ctypes.c_bool
    name = ctypes.create_string_buffer(32)
    names = {number: name.value.decode() for number in range(256) if library.flatc_fault_name(number, name)}
    wanted = {number for number, name in names.items() if name != "Memory"}
    tests.tell("a constant for each fault", set(constants) == wanted, f"{sorted(set(constants) ^ wanted)}")
    for number, constant in constants.items():
        words = "".join(word.capitalize() for word in constant.split("_"))
        good = names.get(number) in (words, words.removeprefix("Json"), words.removeprefix("Buffer"))
        tests.tell(f"the name of FLATC_FAULT_{constant}", good, f"{names.get(number)}")


def cpp_calls(tests):
    """tests/library.cpp, with the compiler's sanitizers where it has them."""
    for standard in ("c++17", "c++20"):
        words = [*compiler("CXX", "c++"), f"-std={standard}", "-O1", "-g", *STRICT, f"-I{INCLUDE}"]
        words += [f"{ROOT}/tests/library.cpp", f"{tests.folder}/libflatc.a", "-pthread", "-o", "calls"]
        if done([*words, *SANITIZERS]).returncode != 0:
            skipped(f"sanitizers in {standard}", "the compiler has none")
            if succeeded(tests, f"library.cpp compiles as {standard}", words) is None:
                continue
        ran = done(["./calls"])
        tests.tell(f"library.cpp as {standard}", ran.returncode == 0, f"{ran.returncode} {ran.stderr[-600:]}")
        for line in ran.stdout.splitlines():
            how, _, what = line.partition(": ")
            tests.tell(f"{what} as {standard}", how == "right", how)


def long_rows(tests):
    """Long JSON texts have the command's outcome, and with an explanation take as little memory."""
    if not built(tests, f"{ROOT}/tests/encode.c", "encode", flags=["-std=c99"]):
        return
    write("s.fbs", long_texts.SCHEMA)
    write("none.json", b"{}")
    taken = long_texts.Taken(os.path.abspath("encode"))
    _, _, nothing = taken.of(["s.fbs", "none.json"])
    for row in long_texts.ROWS:
        json = row.of_size(long_texts.LONG)
        write("long.json", json)
        outcome, _, peak = taken.of(["s.fbs", "long.json", *row.flags])
        tests.tell(f"{row.name}, long", outcome == (1 if row.line else 0, row.line), f"{outcome}, not {row.line}")
        most = nothing + long_texts.MOST * len(json) / 1024 * (1 + row.share)
        tests.tell(f"the memory of {row.name}", peak <= most, f"{peak} KiB, over {most:.0f} KiB")


def page_program(kind, path):
    """The first program in a language of docs/LIBRARY.md, as a file."""
    text = content(f"{ROOT}/docs/LIBRARY.md").decode()
    os.makedirs(os.path.dirname(path) or ".", exist_ok=True)
    write(path, re.search(rf"^```{kind}\n(.*?)^```", text, re.M | re.S)[1].encode())
    return path


def page(tests):
    """The programs of docs/LIBRARY.md convert a message, and those that can show a refusal."""
    bytes_made, refused = "28 bytes\n", "72 OutOfRange\n"

    def expect(language, words, wanted, **more):
        said = succeeded(tests, f"the page's program in {language}", words, **more)
        tests.tell(f"what the page's program in {language} prints", said == wanted, f"{said}")

    if built(tests, page_program("c", "page.c"), "page_c", flags=["-std=c99"]):
        expect("C", ["./page_c"], bytes_made)
    if built(tests, page_program("cpp", "page.cpp"), "page_cpp", "c++", "CXX", ["-std=c++17"]):
        expect("C++", ["./page_cpp"], bytes_made + refused)
    flags = {"LIBFLATC": f"{tests.folder}/libflatc.so", "PYTHONPATH": PYTHON}
    flags["PYTHONDONTWRITEBYTECODE"] = "1"
    expect("Python", [sys.executable, page_program("python", "page.py")], bytes_made + refused, env=os.environ | flags)
    if why := why_not():
        skipped("the page's program in Rust", why)
        return
    shutil.copytree(f"{ROOT}/bindings/rust", "crates", ignore=shutil.ignore_patterns("target"))
    page_program("rust", "crates/flatc/examples/page.rs")
    flags = {"FLATC_LIB_DIR": tests.folder, "FLATC_STATIC": "1", "CARGO_TARGET_DIR": os.path.abspath("target")}
    words = ["cargo", "run", "--offline", "--quiet", "--package", "flatc", "--example", "page"]
    expect("Rust", words, bytes_made + refused, cwd="crates", env=os.environ | flags)


def files_below(folder):
    return {os.path.relpath(os.path.join(at, it), folder) for at, _, names in os.walk(folder) for it in names}


def installed(tests):
    """Installs into an empty folder, uses what is there as pkg-config would say, and uninstalls."""
    _, _, version = declared()
    prefix = os.path.abspath("usr")
    make = ["make", "--silent", "-C", ROOT, f"PREFIX={prefix}"]
    # what is built isn't built again
    if succeeded(tests, "make install", [*make, "-o", "build", "-o", "lib", "install"]) is None:
        return
    want = {"bin/flatc", "include/flatc.h", "include/flatc.hpp", "lib/libflatc.a", "lib/libflatc.so"}
    want |= {"lib/libflatc.so.0", f"lib/libflatc.so.{version}", "lib/pkgconfig/flatc.pc"}
    tests.tell("what is installed", files_below(prefix) == want, f"{files_below(prefix) ^ want}")
    words = content(f"{prefix}/lib/pkgconfig/flatc.pc").decode()
    tests.tell("the version of flatc.pc", f"Version: {version}\n" in words and "@" not in words, words)
    flags = re.search(r"Cflags: (.*)", words)[1] + " " + re.search(r"Libs: (.*)", words)[1]
    flags = flags.replace("${libdir}", f"{prefix}/lib").replace("${includedir}", f"{prefix}/include").split()
    build = [*compiler("CC", "cc"), f"{EXAMPLES}/c/convert.c", *flags, "-o", "convert"]
    if succeeded(tests, "the example over what is installed", build) is not None:
        env = {**os.environ, "LD_LIBRARY_PATH": f"{prefix}/lib"}
        succeeded(tests, "it runs", ["./convert", SCHEMA, JSON, "orc.bin"], env=env)
    succeeded(tests, "make uninstall", [*make, "uninstall"])
    tests.tell("nothing is left of it", not files_below(prefix), f"{files_below(prefix)}")


def valgrind(tests):
    write("wrong.json", WRONG)
    if not shutil.which("valgrind"):
        skipped("valgrind", "apt-get install valgrind")
    elif built(tests, f"{EXAMPLES}/c/convert.c", "convert", flags=["-std=c99", "-g"]):
        words = ["valgrind", "--quiet", "--leak-check=full", "--show-leak-kinds=all", "--error-exitcode=9"]
        for name, path, status in (("a monster", JSON, 0), ("a refusal", "wrong.json", 1)):
            ran = done([*words, "./convert", SCHEMA, path, "orc.bin"])
            why = f"status {ran.returncode}: {ran.stderr[-900:]}"
            tests.tell(f"valgrind over {name}", ran.returncode == status, why)


PARTS = (
    headers,
    exports,
    fault_numbers,
    c_example,
    c_message,
    misuse,
    growths,
    cpp_calls,
    cpp_example,
    page,
    long_rows,
    installed,
)


def main():
    if len(sys.argv) != 3:
        sys.exit(__doc__)
    tests = Tests("library", os.path.abspath(sys.argv[2]))
    tests.folder = os.path.abspath(sys.argv[1])
    return tests.main((valgrind,) if sys.argv[2] == "--valgrind" else PARTS)


if __name__ == "__main__":
    sys.exit(main())
