#!/usr/bin/env bash
# Converts examples/monster.json to a buffer, checks it, and prints it back, with each line before its output.
# Fails where that differs from tests/example.stdout.
# usage: tests/example.sh PROGRAM
set -euo pipefail
program=$(realpath "$1")
cd "$(dirname "$0")/../examples"
out=$(mktemp -d)
trap 'rm -rf "$out"' EXIT

show() {
    echo "\$ flatc ${*//$out\//}"
    "$program" "$@"
}

{
    show binary monster.fbs monster.json "$out/monster.bin"
    show check monster.fbs "$out/monster.bin"
    show json monster.fbs "$out/monster.bin"
} | tee "$out/stdout"
diff ../tests/example.stdout "$out/stdout" >&2
