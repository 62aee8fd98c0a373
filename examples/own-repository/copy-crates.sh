#!/bin/sh
# Copies crates of this repository, with all that they stand on, into another one, and adds their lines to its crates.txt.
# What isn't in this crates.txt is a library of the kit, and isn't copied.
# usage: examples/own-repository/copy-crates.sh FOLDER CRATE..
set -e
top=$(cd "$(dirname "$0")/../.." && pwd)
folder=$1
shift
mkdir -p "$folder/crates"
waiting=$* found=
while [ -n "$waiting" ]; do
    # shellcheck disable=SC2086
    set -- $waiting
    name=$1
    shift
    waiting=$*
    if line=$(grep "^$name:" "$top/crates.txt") && ! echo "$found " | grep -q " $name "; then
        found="$found $name"
        waiting="$waiting ${line#*:}"
    fi
done
for name in $found; do
    cp -r "$top/crates/$name" "$folder/crates/"
    rm -rf "$folder/crates/$name/out"
    grep "^$name:" "$top/crates.txt"
done >> "$folder/crates.txt"
echo "copied$found"
