#!/bin/sh
# Random programs whose references are of many classes, originals and instrumented: `jcov refs` beside slow_refs.py, and runs
# of all of them; compare_refs.py says what is compared. Then each class file of the jars, by itself, without runs.
# usage: bench/refs/refs.sh [JCOV]      JCOV: the built program; else the one of crates/jcov/out
# SEEDS names the seeds, else 1. COUNT says how many programs each makes (500). JARS names jars, else none are looked at.
set -e
here=$(cd "$(dirname "$0")" && pwd)
lib=$here/../lib
. "$lib/jcov-path.sh"
folder=$(mktemp -d)
trap 'rm -rf "$folder"' EXIT
cd "$folder"
failed=0
for seed in ${SEEDS:-1}; do
    rm -rf made out
    echo "seed $seed"
    python3 "$here/refs_programs.py" "$seed" "${COUNT:-500}" made 8
    (cd made && ls *.class | xargs "$jcov" instrument --dest ../out) > lines
    python3 "$here/compare_refs.py" "$jcov" made out || failed=1
done
if [ -n "$JARS" ]; then
    python3 "$lib/unpack.py" jars $JARS
    cut -f 1 jars/list | sed 's/.*/& &/' > list
    mv list jars/list
    echo "class files of jars"
    python3 "$here/compare_refs.py" "$jcov" jars || failed=1
fi
exit "$failed"
