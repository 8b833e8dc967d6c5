#!/bin/sh
# Tries the must-fail edits of the crates that are named, with those of their folder edits/, which the gate leaves out: for use after a change of a crate's contracts.
# Works on a copy, and takes what `rt lib` has built from the crates' out/.
[ $# -gt 0 ] || { echo "usage: bench/edits.sh CRATE.." >&2; exit 2; }
top=$(cd "$(dirname "$0")/.." && pwd) || exit 1
copy=$(mktemp -d) || exit 1
trap 'rm -rf "$copy"' EXIT
cp -r "$top/crates" "$top/crates.txt" "$copy/" && git init -q "$copy" || exit 1
for crate in "$@"; do
    mkdir -p "$copy/crates/$crate/must-fail" && cp "$top/crates/$crate"/edits/*.edit "$copy/crates/$crate/must-fail/" || exit 1
done
cd "$copy" && rt must-fail "$@"
