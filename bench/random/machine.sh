#!/bin/sh
# Random programs of the machine's profile, run by `jcov run` and on the Java machine 17: the printed text, how the thread
# ends, and the static fields are compared. Half of the programs are compiled by javac, half are written as bytes.
# usage: bench/random/machine.sh [JCOV]      JCOV: the built program; else the one of crates/jcov/out
# SEEDS names the seeds, else 1 to 4. COUNT says how many programs each makes (550). With SLOW=1 slow_machine.py is
# compared with the Java machine, in place of jcov.
#
# What is known to differ: HotSpot prints `true` for an even number that isn't 0 and is handed to `println (Z)V`, and `false` for no
# other than 0. The programs print the last bit, or an odd number.
set -e
here=$(cd "$(dirname "$0")" && pwd)
lib=$here/../lib
[ -n "$SLOW" ] || . "$lib/jcov-path.sh"
folder=$(mktemp -d)
trap 'rm -rf "$folder"' EXIT
cd "$folder"
failed=0
javac -encoding UTF-8 -d harness "$here/Machine.java"
for seed in ${SEEDS:-1 2 3 4}; do
    rm -rf made
    python3 "$here/machine_programs.py" "$seed" "${COUNT:-550}" made
    # The interpreter alone: an int that is handed on as a boolean or a byte keeps its value there.
    java -Xint -Xmx64m -XX:+UseSerialGC -Xverify:all -cp harness Machine made > theirs 2>/dev/null
    if [ -n "$SLOW" ]; then
        python3 "$here/slow_machine.py" made > ours
    else
        (cd made && while read -r name files; do
            echo "program $name"
            "$jcov" run --plan "$name.plan" --destfile hits $files || echo "run of $name: status $?" >&2
        done < list) > ours
    fi
    echo "seed $seed"
    python3 "$here/compare_texts.py" theirs ours || failed=1
done
exit "$failed"
