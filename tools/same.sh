#!/usr/bin/env bash
# Proves and builds the commit that a release's tarball names, from nothing, and reports whether that makes the same bytes.
# It takes as long as `make build lib` does.
# usage: tools/same.sh TARBALL
set -euo pipefail

fail() {
    echo "$1" >&2
    exit 1
}

# What BUILD-INFO says of a commit or toolchain.
field() {
    sed -n "s/^$1 //p" <<< "$info"
}

[ $# -eq 1 ] || fail "usage: tools/same.sh TARBALL"
tarball=$(realpath "$1")
root=$(cd "$(dirname "$0")/.." && pwd)
work=$(mktemp -d)
trap 'rm -rf "$work"' EXIT

mkdir "$work/given" "$work/made"
tar -xzf "$tarball" -C "$work/given"
info=$(cat "$work"/given/*/BUILD-INFO)
commit=$(field commit)
[[ $commit =~ ^[0-9a-f]{40}$ ]] || fail "it names no commit: $commit"
[ "$(rt version)" = "$(field toolchain)" ] || fail "it was built by $(field toolchain), and here is $(rt version)"
git clone --quiet --no-checkout "$root" "$work/clone"
git -C "$work/clone" checkout --quiet --detach "$commit" || fail "this repository doesn't have the commit $commit"
"${MAKE:-make}" -C "$work/clone" build lib dist >&2

made=("$work"/clone/dist/*.tar.gz)
if cmp --silent "$tarball" "${made[0]}"; then
    echo "the same: $(sha256sum < "$tarball" | cut -d ' ' -f 1), of commit $commit"
else
    tar -xzf "${made[0]}" -C "$work/made"
    (cd "$work" && diff -rq given made) || true
    fail "not the same as commit $commit makes"
fi
