#!/usr/bin/env bash
# What shows within minutes whether a change works: the rows, the program's words and files, what it explains, and
# damaged buffers of a few schemas. It runs what tools/build.py or the gate has built, and builds nothing: what isn't
# there is named, and counts as a failure. The last line is 'N passed, M failed'.
set -uo pipefail
cd "$(dirname "$0")/.."
program=crates/flatc/out/flatc
hostile=crates/test_hostile/out/test_hostile
rows=crates/test_rows/out/test_rows
passed=0
failed=0

# Adds the counts in the last line of a test's output, or a failure where it has none.
count() {
    echo "$1: $2"
    if [[ $2 =~ ^([0-9]+)\ passed,\ ([0-9]+)\ failed$ ]]; then
        passed=$((passed + BASH_REMATCH[1]))
        failed=$((failed + BASH_REMATCH[2]))
    else
        failed=$((failed + 1))
    fi
}

# Runs a test over a program.
try() {
    local name=$1 over=$2
    shift 2
    if [[ -x $over ]]; then
        count "$name" "$("$@" | tee /dev/stderr | tail -n 1)"
    else
        count "$name" "$over isn't built: python3 tools/build.py $(basename "$over")"
    fi
}

# Compares the counts of the rows with those that are wanted.
try_rows() {
    if diff <(cd crates/test_rows/data && xargs "../out/test_rows" < ../args | tail -n 1) crates/test_rows/stdout; then
        echo '1 passed, 0 failed'
    else
        echo '0 passed, 1 failed'
    fi
}

try rows "$rows" try_rows
try command "$program" python3 tests/command.py "$program"
try explain "$program" python3 tests/explain.py "$program"
try soak "$hostile" python3 tests/soak.py "$hostile" --schemas 20 --damages 20
echo "$passed passed, $failed failed"
[[ $failed -eq 0 && $passed -gt 0 ]]
