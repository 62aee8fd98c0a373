#!/bin/sh
# Batches of cases: what is hit behind each ten of forty cases, on one worker and on four, and what stands where a dump can't be written.
# usage: examples/builds/dumps.sh [JCOV]      JCOV: the built program; else the one of crates/jcov/out
set -e
. "$(dirname "$0")/begin.sh"
make_class . Calc
jcov instrument --dest inst Calc.class
for number in $(seq 40); do
    # The first twenty cases take the second return alone, and the others the first.
    sign=$([ "$number" -le 20 ] || echo -)
    printf 'case\nthread Calc.abs %s5\nschedule robin 100\n' "$sign"
done > cases
cd inst
jcov run --plan ../cases --destfile whole.exec Calc.class > whole

# On one worker each dump has exactly what its ten cases hit, and nothing is left.
jcov run --plan ../cases --destfile rest.exec --dumps dumps --every 10 Calc.class > said
cmp said whole
[ ! -e dumps/5.exec ] || fail "forty cases have more than four dumps"
cmp dumps/1.exec dumps/2.exec
cmp dumps/3.exec dumps/4.exec
! cmp -s dumps/2.exec dumps/3.exec || fail "two batches that differ have one dump"
for part in dumps/1 dumps/3 rest; do
    jcov execinfo "$part.exec"
done
[ "$(jcov execinfo dumps/1.exec | grep -c ' 1 of 2$')" -eq 1 ] || fail "the first batch hit not one probe"
[ "$(jcov execinfo rest.exec | wc -l)" -eq 1 ] || fail "something was left behind the last dump"

# On four workers nothing says which dump has a hit; all together are what `run` writes.
for workers in 1 4; do
    rm -rf dumps
    jcov run --plan ../cases --destfile rest.exec --dumps dumps --every 7 --workers "$workers" Calc.class > said
    cmp said whole
    jcov merge --destfile all.exec dumps/*.exec rest.exec
    cmp all.exec whole.exec
done

# A dump that can't be written, since its folder is a file: the execution data isn't there.
echo > file
ends_with 4 jcov run --plan ../cases --destfile late.exec --dumps file --every 10 Calc.class
[ ! -e late.exec ] || fail "execution data stands behind a dump that wasn't written"

# A path of the words that could be a dump's is Usage.
ends_with 2 jcov run --plan ../cases --destfile dumps/9.exec --dumps dumps --every 10 Calc.class
