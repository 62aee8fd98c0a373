#!/bin/sh
# bench/must-fail.sh NAME.. tries the wrong bodies of bench/must-fail/NAME, which the gate leaves out, each on a copy of the repository.
# The prover has to refuse each: run it for a crate whose code or contract changed.
set -e
top=$(cd "$(dirname "$0")/.." && pwd)
copy=$(mktemp -d)
trap 'rm -rf "$copy"' EXIT
cp -R "$top/crates" "$top/crates.txt" "$top/HANDLES" "$copy/"
rm -rf "$copy"/crates/*/must-fail
for name in "$@"; do
    mkdir -p "$copy/crates/$name/must-fail"
    cp "$top/bench/must-fail/$name/"*.edit "$copy/crates/$name/must-fail/"
done
cd "$copy"
RT_JOBS=$(nproc) rt must-fail "$@"
