#!/bin/sh
# Random programs of the machine's profile, instrumented by `jcov instrument` and run beside their originals under random
# schedules of up to eight threads. slow_twin.py works out the kept turns, the worlds of both and the edges taken, and says
# what it compares. `jcov report` over its hits has to give its rows, and `jcov run` its texts and its hits.
# usage: bench/random/simulation.sh [JCOV]      JCOV: the built program; else the one of crates/jcov/out
# SEEDS names the seeds, else 1 and 2. COUNT says how many programs each makes (100), and WORKERS how many workers run them (1).
# WITHOUT_RUN=1 leaves `jcov run` out.
set -e
here=$(cd "$(dirname "$0")" && pwd)
lib=$here/../lib
. "$lib/jcov-path.sh"
folder=$(mktemp -d)
trap 'rm -rf "$folder"' EXIT
cd "$folder"
failed=0
for seed in ${SEEDS:-1 2}; do
    rm -rf made out
    echo "seed $seed"
    python3 "$here/machine_programs.py" "$seed" "${COUNT:-100}" made 8
    (cd made && ls *.class | xargs "$jcov" instrument --dest ../out) > lines
    python3 "$here/slow_twin.py" made out "$seed" || failed=1
    (cd made && "$jcov" report --csv ../rows.csv --name R --exec hits.exec *.class)
    tail -n +2 rows.csv | sort > ours
    echo "$(wc -l < made/rows.csv) rows of a report; $(diff ours made/rows.csv | grep -c '^[<>]') lines differ" | tee differ
    grep -q ' 0 lines differ' differ || failed=1
    [ -z "$WITHOUT_RUN" ] || continue
    while read -r name files; do
        echo "program $name"
        (cd out && "$jcov" run --plan "../made/$name.plan" --destfile "$name.exec" ${WORKERS:+--workers "$WORKERS"} $files) ||
            echo "run of $name: status $?" >&2
    done < made/list > texts
    python3 "$here/compare_texts.py" made/texts texts || failed=1
    # Records without a hit aren't written, so the union of the runs' data is the file of hits.
    "$jcov" merge --destfile hits.exec out/*.exec
    cmp hits.exec made/hits.exec && echo "the hits are alike" || failed=1
done
exit "$failed"
