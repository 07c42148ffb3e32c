#!/bin/sh
# wrong.sh [CRATE..]: the second half of the wrong programs, tests/wrong/CRATE/*.edit, tried as the gate tries the first half (crates/CRATE/must-fail).
# The gate has one of each promise where its crate is cheap, these are the others: with both, two wrong answers of every public promise. They take the place of the
# gate's in a copy of the last commit, and `rt must-fail` tries them there, over what was proved of those crates on this machine. It fails where one is not refused or is bad.
set -eu
root=$(cd "$(dirname "$0")/.." && pwd -P)
[ $# -gt 0 ] || set -- $(ls "$root/tests/wrong")
copy=$(mktemp -d)
trap 'rm -rf "$copy"' EXIT
git -C "$root" archive HEAD | tar -x -C "$copy"
cd "$copy"
git init -q .
rm -rf crates/*/must-fail
for crate in "$@"; do
    mkdir "crates/$crate/must-fail"
    cp "tests/wrong/$crate"/*.edit "crates/$crate/must-fail/"
done
rt must-fail "$@"
