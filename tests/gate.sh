#!/usr/bin/env bash
# The gate: all that rt ci proves and runs; whether each mutation can still be applied and each edit in not-compiled/ is
# refused; whether copies of the version and of figures are right, the libraries are used that have to be, each fault
# has its page and its number in each language, and the time of make run is estimated well. Then the built program: with
# words and files, on the examples of README and docs/, as a git hook, with texts that are cut off, long or no texts at
# all, with what is done to OUT, with standard streams for paths, with many files in one call, with streams of messages,
# what it lists of buffers and schemas, at a terminal, where memory, pipes and stack run out, what it explains, that explaining
# changes nothing else, what refusals look like in each format, its usage under another name, its lines beside those of
# Google's flatc, its man page and completions, its hooks for pre-commit and CI, how costs grow, and how much memory it
# takes, also for long texts that are refused; the calls with growths refused, some thousand damaged buffers, some
# thousand JSON texts in pieces, the library for C with its examples, the package for Python, the crates for Rust, and
# what a release has. The last line counts all of it: 'N passed, M failed'.
set -uo pipefail
cd "$(dirname "$0")/.."
program=crates/flatc/out/flatc
hostile=crates/test_hostile/out/test_hostile
parser=crates/bench_json_parse/out/bench_json_parse
logs=$(mktemp -d)
trap 'rm -rf "$logs"' EXIT
status=0
# One job for each processor that has 4 GB of memory. By itself rt ci reckons with more memory than checks take, and
# runs the last and largest crates one after another.
RT_JOBS=${RT_JOBS:-$(cd tools && python3 -c 'import build; print(build.jobs_here())')}
export RT_JOBS
# As in tools/build.py.
export MIMALLOC_PURGE_DELAY=${MIMALLOC_PURGE_DELAY:--1}

# What rt check left there would be put back behind rt ci, and what follows would be built over it.
rm -rf crates/*/out/rlib
rt ci | tee "$logs/ci" || status=1
python3 tools/build.py flatc test_hostile bench_json_parse --over-gate || status=1
python3 tools/mutations.py --applies | tee "$logs/mutations" || status=1
python3 tools/version.py --check | tee "$logs/version" || status=1
python3 tools/dependencies.py | tee "$logs/dependencies" || status=1
python3 tools/faults.py --check | tee "$logs/faults" || status=1
python3 tests/estimate.py tests/make_run | tee "$logs/estimate" || status=1
python3 bench/picture.py --check | tee "$logs/picture" || status=1
python3 tools/mutations.py --not-compiled | tee "$logs/not-compiled" || status=1
for part in command pages git_hook texts outputs streams batches lines prefixed inspect describe terminal hostile explain \
    error_formats told_alike program_name google shells hooks costs; do
    python3 "tests/$part.py" "$program" | tee "$logs/$part" || status=1
done
for part in growths soak pieces; do
    python3 "tests/$part.py" "$hostile" | tee "$logs/$part" || status=1
done
python3 tests/memory.py "$program" "$parser" | tee "$logs/memory" || status=1
python3 tests/long_texts.py "$program" | tee "$logs/long_texts" || status=1
make --silent lib BUILD=--over-gate || status=1
python3 tests/library.py lib "$program" | tee "$logs/library" || status=1
python3 tests/python_package.py lib | tee "$logs/python_package" || status=1
python3 tests/rust_crates.py lib | tee "$logs/rust_crates" || status=1
python3 tests/release.py | tee "$logs/release" || status=1

passed=0
failed=0
for log in "$logs"/*; do
    if [[ $(tail -n 1 "$log") =~ ^([0-9]+)\ passed,\ ([0-9]+)\ failed$ ]]; then
        passed=$((passed + BASH_REMATCH[1]))
        failed=$((failed + BASH_REMATCH[2]))
    else
        failed=$((failed + 1))
    fi
done
if [ "$status" -ne 0 ] && [ "$failed" -eq 0 ]; then
    failed=1
fi
echo "$passed passed, $failed failed"
[ "$failed" -eq 0 ]
