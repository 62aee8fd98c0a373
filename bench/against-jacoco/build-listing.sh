#!/bin/sh
# Builds the program of `listing.txt`, which prints what the crates read of class files.
# usage: bench/against-jacoco/build-listing.sh PROGRAM      PROGRAM: the path at which it is put
#
# A `.rt` file stands only in a crate, so the crate `jc_listing` is made in a copy of the repository. The crates below
# it are proved there, unless they were on this machine before.
set -e
[ $# -eq 1 ] || { echo "usage: bench/against-jacoco/build-listing.sh PROGRAM" >&2; exit 2; }
top=$(cd "$(dirname "$0")/../.." && pwd)
folder=$(mktemp -d)
trap 'rm -rf "$folder"' EXIT
cp "$top/HANDLES" "$folder"
for crate in "$top"/crates/*; do
    name=$(basename "$crate")
    mkdir -p "$folder/crates/$name"
    for part in src specs proofs; do
        [ ! -d "$crate/$part" ] || cp -R "$crate/$part" "$folder/crates/$name"
    done
done
{ cat "$top/crates.txt"; echo "jc_listing: jc_base jc_class jc_body jc_kinds jc_plan"; } > "$folder/crates.txt"
mkdir -p "$folder/crates/jc_listing/src"
cp "$top/bench/against-jacoco/listing.txt" "$folder/crates/jc_listing/src/main.rt"
(cd "$folder/crates/jc_listing" && rt run -- classes >&2)
cp "$folder/crates/jc_listing/out/jc_listing" "$1"
