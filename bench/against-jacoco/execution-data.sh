#!/bin/sh
# Execution data by jcov and by JaCoCo's own library (Debian's libjacoco-java, and a JDK): files that its
# writer makes are merged and listed by both, and each reads what the other wrote.
# usage: bench/against-jacoco/execution-data.sh [JCOV]      JCOV: the built program; else the one of crates/jcov/out
# ROUNDS: how many sets of files (20).
set -e
here=$(cd "$(dirname "$0")" && pwd)
lib=$here/../lib
. "$lib/jcov-path.sh"
. "$lib/jacoco-path.sh"
folder=$(mktemp -d)
trap 'rm -rf "$folder"' EXIT
cd "$folder"
javac -encoding UTF-8 -cp "$jacoco" -d . "$here/ExecutionFiles.java"
against() { java -Dfile.encoding=UTF-8 -Xmx8g -cp ".:$jacoco" ExecutionFiles "$@"; }

files=0
records=0
sessions=0
for round in $(seq 1 "${ROUNDS:-20}"); do
    mkdir "$round"
    against make "$round" "$round" 6
    inputs=$(for k in 0 1 2 3 4 5; do echo "$round/$k.exec"; done)
    "$jcov" merge --destfile "$round/ours" $inputs
    against merge "$round/theirs" $inputs
    against dump "$round/ours" > "$round/ours.txt"
    against dump "$round/theirs" > "$round/theirs.txt"
    cmp "$round/ours.txt" "$round/theirs.txt"
    # What each says of its own inputs, of the union that the other wrote, and merged once more.
    "$jcov" execinfo $inputs "$round/ours" "$round/theirs" > "$round/listed"
    against info $inputs "$round/ours" "$round/theirs" > "$round/wanted"
    cmp "$round/listed" "$round/wanted"
    "$jcov" merge --destfile "$round/again" "$round/theirs"
    against dump "$round/again" > "$round/again.txt"
    cmp "$round/again.txt" "$round/theirs.txt"
    # Records that clash are refused by both.
    if "$jcov" merge --destfile "$round/x" "$round/base.exec" "$round/clash.exec" 2> "$round/message"; then echo "no clash"; exit 1; fi
    if against merge "$round/x" "$round/base.exec" "$round/clash.exec" 2> "$round/message"; then echo "no clash"; exit 1; fi
    files=$((files + 8))
    records=$((records + $(grep -c '^class ' "$round/listed")))
    sessions=$((sessions + $(grep -c '^session ' "$round/listed")))
    rm -r "$round"
done
echo "agree: $files files, $records records and $sessions sessions listed, ${ROUNDS:-20} unions both ways"

# The same union by both, start-up included; the best of three by the clock.
clock() { best=; for _ in 1 2 3; do a=$(date +%s%N); "$@"; b=$(date +%s%N); t=$(((b - a) / 1000000)); [ -z "$best" ] || [ "$t" -lt "$best" ] && best=$t; done; echo "$best"; }
echo "load before: $(cut -d' ' -f1 /proc/loadavg)"
for probes in 40 65535; do
    for size in 1048576 4194304 16777216 67108864; do
        against fill in.exec "$probes" "$size"
        ours=$(clock "$jcov" merge --destfile o in.exec)
        theirs=$(clock against merge p in.exec)
        printf '%6d probes a record, %8d bytes: jcov %5d ms, JaCoCo %5d ms\n' "$probes" "$(wc -c < in.exec)" "$ours" "$theirs"
        rm -f in.exec o p
    done
done
for k in $(seq 1 16); do against fill "$k.exec" 40 4194304; done
ours=$(clock "$jcov" merge --destfile o $(seq -f '%g.exec' 1 16))
theirs=$(clock against merge p $(seq -f '%g.exec' 1 16))
printf 'sixteen files of 4 MiB with the same ids: jcov %5d ms, JaCoCo %5d ms\n' "$ours" "$theirs"
rm -f ./*.exec o p
for k in $(seq 1 40); do against fill "$k.exec" 40 30000; done
ours=$(clock "$jcov" merge --destfile o $(seq -f '%g.exec' 1 40))
theirs=$(clock against merge p $(seq -f '%g.exec' 1 40))
printf 'forty files of 30,000 bytes: jcov %5d ms, JaCoCo %5d ms\n' "$ours" "$theirs"
