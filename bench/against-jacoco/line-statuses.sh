#!/bin/sh
# `jcov lines` and `jcov check` beside JaCoCo's own analyzer (Debian's libjacoco-java, and a JDK) over the class files of Debian's Java
# libraries and execution data of random hits, with JaCoCo's filters switched off but for the synthetic one: the status of each
# line of each class, the totals of all classes, and the rules that these totals just reach and just miss.
# Left out are class files that jcov refuses, a second one of a name, and those with a line entry of number 0, which JaCoCo drops.
# usage: bench/against-jacoco/line-statuses.sh [JCOV]      JCOV: the built program; else the one of crates/jcov/out
# SEEDS names the seeds of the hits, else 1 to 3. COUNT says how many class files are taken, else all. JARS names other jars,
# parted by spaces.
set -e
here=$(cd "$(dirname "$0")" && pwd)
lib=$here/../lib
. "$lib/jcov-path.sh"
. "$lib/jacoco-path.sh"
jacoco=$jacoco:/usr/share/java/org.jacoco.report.jar:/usr/share/java/asm-analysis.jar
folder=$(mktemp -d)
trap 'rm -rf "$folder"' EXIT
cd "$folder"
javac -encoding UTF-8 -cp "$jacoco" -d . "$lib/Report.java" "$lib/Lines.java"
python3 "$lib/unpack.py" . ${JARS:-/usr/share/java/*.jar}
xargs "$jcov" report --csv all.csv < paths 2> refused
sed 's/^refused \([^:]*\):.*/\1/' refused > out
java -cp ".:$jacoco" Lines zero paths > zero
# Of the others one of each name, as many as are asked for, spread over all jars.
python3 - "${COUNT:-1000000}" <<'EOF'
import re
import sys
left_out = set(open("out").read().split()) | set(open("zero").read().split())
names, paths = set(), []
for line in open("list"):
    path, jar, entry = line.rstrip("\n").split("\t")
    name = re.sub(r"^META-INF/versions/\d+/", "", entry)
    if path not in left_out and name not in names:
        names.add(name)
        paths.append(path)
count = min(int(sys.argv[1]), len(paths))
taken = [paths[k * len(paths) // count] for k in range(count)]
open("taken", "w").write("".join(path + "\n" for path in taken))
print("%d class files left out, %d of %d others taken" % (len(left_out), len(taken), len(paths)))
EOF
failed=0
for seed in ${SEEDS:-1 2 3}; do
    java -cp ".:$jacoco" Report hits "$seed" taken hits.exec
    java -cp ".:$jacoco" Lines list taken hits.exec > theirs
    java -cp ".:$jacoco" Lines totals taken hits.exec > totals
    "$jcov" lines --exec hits.exec $(cat taken) > ours
    echo "seed $seed: $(grep -c '^class' ours) classes, $(grep -vc '^class' ours) lines, $(diff ours theirs | grep -c '^[<>]') differ"
    for status in not partly fully empty; do
        printf '%s %s; ' "$(grep -c " $status\$" ours)" "$status"
    done
    cmp -s ours theirs || failed=1
    # What each rule prints: the totals; then fractions of a million, one that is reached and one that isn't.
    awk '{ print "rule " $1 " " $2 " of " $3 ": ok" }' totals > wanted
    rules() {
        awk -v more="$1" '{ a = $3 ? int($2 * 1000000 / $3) + more : 1000000; printf "%s%s=%d/1000000", (NR > 1 ? "," : ""), $1, a }' totals
    }
    "$jcov" check --min "$(rules 0)" --exec hits.exec $(cat taken) > held || failed=1
    status=0
    "$jcov" check --min "$(rules 1)" --exec hits.exec $(cat taken) > broken || status=$?
    sed 's/: below$/: ok/' broken | cmp -s - wanted && cmp -s held wanted && [ "$status" -eq 6 ] && [ "$(grep -c ': below$' broken)" -eq 6 ] || failed=1
    echo "totals: $(diff held wanted | grep -c '^[<>]') differ; one millionth more: $(grep -c ': below$' broken) of 6 rules broken, status $status"
done
exit "$failed"
