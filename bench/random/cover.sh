#!/bin/sh
# Random programs of the machine's profile by `jcov cover`, and the originals instrumented by JaCoCo's own `Instrumenter`, run on
# the Java machine 17 and reported by JaCoCo's library (Debian's libjacoco-java and libasm-java, and a JDK): the texts of the
# programs, the execution data probe by probe and the rows of the reports are compared. JaCoCo's filters are off but for the
# synthetic one, which jcov has too.
# usage: bench/random/cover.sh [JCOV]      JCOV: the built program; else the one of crates/jcov/out
# SEEDS names the seeds, else 1 to 3. COUNT says how many programs each makes (100), and WORKERS how many workers run them (1). With
# SLOW=1 the programs are instrumented and reported by jcov and run by slow_machine.py, in place of `jcov cover`.
set -e
here=$(cd "$(dirname "$0")" && pwd)
lib=$here/../lib
. "$lib/jcov-path.sh"
. "$lib/jacoco-path.sh"
jacoco=$jacoco:/usr/share/java/org.jacoco.report.jar:/usr/share/java/asm-analysis.jar
examples=$here/../../examples/java-machine
folder=$(mktemp -d)
trap 'rm -rf "$folder"' EXIT
cd "$folder"
javac -encoding UTF-8 -cp "$jacoco" -d harness "$here/Machine.java" "$lib/Instrument.java" "$lib/Report.java" \
    "$examples/RunCovered.java" "$examples/org/jacoco/agent/rt/internal/Offline.java"

# What jcov makes of the programs: `texts`, `ours.exec`, `ours.csv`, and the lines of instrumentation.
by_jcov() {
    while read -r name files; do
        echo "program $name"
        (cd made && "$jcov" cover --dest ../out --plan "$name.plan" --destfile "../out/$name.exec" --csv "../out/$name.csv" --name R \
            ${WORKERS:+--workers "$WORKERS"} $files 2>> ../refusals) > printed || echo "cover of $name: status $?" >&2
        grep -E '^(instrumented|unchanged) ' printed >> lines || true
        grep -vE '^(instrumented|unchanged) ' printed || true
    done < made/list > texts
    "$jcov" merge --destfile ours.exec out/*.exec
    cat out/*.csv | grep -v '^GROUP,' | sort > ours.csv
}

# The same by the slow machine.
by_parts() {
    (cd made && ls *.class | xargs "$jcov" instrument --dest ../out) > lines 2> refusals
    python3 "$here/slow_twin.py" made out "$seed"
    (cd made && "$jcov" report --csv ../rows.csv --name R --exec hits.exec *.class)
    mv made/texts texts
    mv made/hits.exec ours.exec
    grep -v '^GROUP,' rows.csv | sort > ours.csv
}

failed=0
for seed in ${SEEDS:-1 2 3}; do
    rm -rf made out theirs lines refusals
    mkdir out
    echo "seed $seed"
    python3 "$here/machine_programs.py" "$seed" "${COUNT:-100}" made
    if [ -n "$SLOW" ]; then by_parts; else by_jcov; fi
    (cd made && ls *.class > ../names && java -cp "../harness:$jacoco" Instrument ../names ../theirs) 2> their-refusals
    cp made/list made/*.plan theirs
    java -Xint -Xmx64m -XX:+UseSerialGC -Xverify:all -cp harness RunCovered theirs.exec Machine theirs > their-texts 2>/dev/null
    "$jcov" merge --destfile theirs-hit.exec theirs.exec
    (cd made && java -cp "../harness:$jacoco" Report csv R ../names ../theirs.exec ../theirs-all.csv)
    grep -v '^GROUP,' theirs-all.csv | sort > theirs.csv
    python3 "$here/compare_texts.py" their-texts texts || failed=1
    python3 "$lib/compare_hits.py" ours.exec theirs-hit.exec lines refusals their-refusals | tee hits
    grep -q ' 0 records differ, 0 stand' hits || failed=1
    echo "$(wc -l < ours.csv) rows of a report; $(diff ours.csv theirs.csv | grep -c '^[<>]') lines differ" | tee differ
    grep -q ' 0 lines differ' differ || failed=1
done
exit "$failed"
