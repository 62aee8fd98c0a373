#!/bin/sh
# A whole tree of classes: instrumented and reported in one call each, and what the ways that don't work give.
# usage: examples/builds/whole-tree.sh [JCOV]      JCOV: the built program; else the one of crates/jcov/out
set -e
. "$(dirname "$0")/begin.sh"
for class in shop/Shop shop/text/Money shop/price/Price; do
    make_class tree "$class"
done
make_refused tree shop/Named

# Each folder of a tree as a word that ends with `/`.
folders() {
    find "$1" -type d | sed 's,$,/,' | sort
}

# The recipe.
jcov instrument --dest inst $(folders tree)
jcov report --csv all.csv $(folders tree) 2> refused
cat refused all.csv
[ "$(wc -l < all.csv)" -eq 4 ] || fail "the report hasn't three rows"
cmp tree/shop/Named.class inst/tree/shop/Named.class

# A folder's word stands for its own class files alone.
jcov instrument --dest top tree/
[ ! -e top ] || fail "a folder's word went into folders below it"

# Lists that `xargs` cuts: each call writes the report anew, so that of the last one stays.
find tree -name '*.class' | sort | xargs -n 2 jcov report --csv last.csv 2> complaint
[ "$(wc -l < last.csv)" -lt 4 ] || fail "a cut list gave the whole report"

# DIR/FILE has the file's whole path, so it is the original itself where DIR is `.`; the class files are written over.
cp -r tree again
(cd again && jcov instrument --dest . shop/text/ > ../said)
! cmp -s tree/shop/text/Money.class again/shop/text/Money.class || fail "--dest . kept the original"

# Paths that aren't plain ones are Usage for these commands, and are taken by `report`.
for word in ./tree/shop/ ../"$(basename "$folder")"/tree/shop/ "$folder/tree/shop/" tree//shop/; do
    ends_with 2 jcov instrument --dest other "$word"
    ends_with 2 jcov classinfo "$word"
    ends_with 0 jcov report --csv other.csv "$word"
done
[ ! -e other ] || fail "Usage left files"
