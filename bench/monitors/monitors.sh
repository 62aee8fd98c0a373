#!/bin/sh
# Random programs whose threads take locks. `jcov run --monitors` beside slow_monitors.py, for the originals and for what `jcov instrument`
# makes of them, under schedules of up to eight threads; compare_monitors.py says what is compared. Then programs of one thread, beside
# the Java machine 17.
# usage: bench/monitors/monitors.sh [JCOV]      JCOV: the built program; else the one of crates/jcov/out
# SEEDS names the seeds, else 1. COUNT says how many programs each makes (300). With SLOW=1 no command of jcov runs: instrumented files
# are made by the rules on emission, and slow_monitors.py is compared with the Java machine.
set -e
here=$(cd "$(dirname "$0")" && pwd)
lib=$here/../lib
[ -n "$SLOW" ] || . "$lib/jcov-path.sh"
folder=$(mktemp -d)
trap 'rm -rf "$folder"' EXIT
cd "$folder"
failed=0
javac -encoding UTF-8 -d harness "$here/../random/Machine.java"
for seed in ${SEEDS:-1}; do
    rm -rf made out one
    echo "seed $seed"
    python3 "$here/monitor_programs.py" "$seed" "${COUNT:-300}" made 8
    if [ -n "$SLOW" ]; then
        python3 "$here/compare_monitors.py" made "$seed" || failed=1
    else
        (cd made && ls *.class | xargs "$jcov" instrument --dest ../out) > lines
        python3 "$here/compare_monitors.py" made "$seed" "$jcov" out || failed=1
    fi
    python3 "$here/monitor_programs.py" "$seed" "${COUNT:-300}" one
    # The interpreter alone: an int that is handed on as a boolean or a byte keeps its value there.
    java -Xint -Xmx64m -XX:+UseSerialGC -Xverify:all -cp harness Machine one > theirs 2>/dev/null
    if [ -n "$SLOW" ]; then
        python3 "$here/slow_monitors.py" one > ours
    else
        (cd one && while read -r name files; do
            echo "program $name"
            "$jcov" run --monitors --plan "$name.plan" --destfile hits $files || echo "run of $name: status $?" >&2
        done < list) > ours
    fi
    python3 "$here/../random/compare_texts.py" theirs ours || failed=1
done
exit "$failed"
