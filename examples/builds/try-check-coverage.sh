#!/bin/sh
# Tries check-coverage.sh: what is taken, and what it fails for: a threshold, a refused class, a class compiled anew.
# usage: examples/builds/try-check-coverage.sh [JCOV]      JCOV: the built program; else the one of crates/jcov/out
set -e
. "$(dirname "$0")/begin.sh"
check=$top/examples/builds/check-coverage.sh
make_class tree shop/Price
printf 'case\nthread shop.Price.abs -5\nschedule robin 100\n' > plan
jcov cover --dest inst --plan plan --destfile all.exec --csv first.csv tree/shop/ > said

sh "$check" 50 all.exec all.csv tree
ends_with 3 sh "$check" 80 all.exec all.csv tree
cat said

make_refused tree shop/Named
ends_with 1 sh "$check" 50 all.exec all.csv tree
cat complaint
rm tree/shop/Named.class

# The class is compiled anew, with another constant in its pool: its id is another one.
make_file tree shop/Price <<CLASS
class shop/Price 52
pool text:other
method 0x9 abs (I)I 1 1
iload_0
ifge 5
iload_0
ineg
ireturn
iload_0
ireturn
frame 5 int |
CLASS
ends_with 2 sh "$check" 50 all.exec all.csv tree
cat complaint

ends_with 13 sh "$check" 50 none.exec all.csv tree
