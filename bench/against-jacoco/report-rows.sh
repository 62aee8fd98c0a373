#!/bin/sh
# `jcov report` and JaCoCo's own library (Debian's libjacoco-java, and a JDK) over the class files of Debian's Java
# libraries and execution data of random hits: their CSV texts are compared row by row, with JaCoCo's filters switched
# off but for the synthetic one, which jcov has too. It also counts the rows that differ where JaCoCo's filters are on.
# usage: bench/against-jacoco/report-rows.sh [JCOV]      JCOV: the built program; else the one of crates/jcov/out
# SEEDS names the seeds of the hits, else 1 to 5. JARS names other jars, parted by spaces.
set -e
here=$(cd "$(dirname "$0")" && pwd)
lib=$here/../lib
. "$lib/jcov-path.sh"
. "$lib/jacoco-path.sh"
jacoco=$jacoco:/usr/share/java/org.jacoco.report.jar:/usr/share/java/asm-analysis.jar
folder=$(mktemp -d)
trap 'rm -rf "$folder"' EXIT
cd "$folder"
javac -encoding UTF-8 -cp "$jacoco" -d . "$lib/Report.java"
python3 "$lib/unpack.py" . ${JARS:-/usr/share/java/*.jar}
xargs "$jcov" report --csv all.csv < paths 2> refused
# Refused classes have no row, and JaCoCo takes one class of a name.
python3 - <<'EOF'
import re
refused = {line.split()[1].rstrip(":") for line in open("refused")}
names = set()
with open("taken", "w") as taken:
    for line in open("list"):
        path, jar, entry = line.rstrip("\n").split("\t")
        name = re.sub(r"^META-INF/versions/\d+/", "", entry)
        if path not in refused and name not in names:
            names.add(name)
            taken.write(path + "\n")
print("%d classes refused, %d of the others taken, one of each name" % (len(refused), len(names)))
EOF
for seed in ${SEEDS:-1 2 3 4 5}; do
    java -cp ".:$jacoco" Report hits "$seed" taken hits.exec
    echo "seed $seed: $("$jcov" execinfo hits.exec | grep -c '^class') records"
    echo "JaCoCo"
    bash -c 'time java -cp ".:$0" Report csv Debian taken hits.exec theirs.csv' "$jacoco" 2>&1 | tr '\n' ' '; echo
    echo "jcov"
    bash -c 'time xargs "$0" report --csv ours.csv --name Debian --exec hits.exec < taken' "$jcov" 2>&1 | tr '\n' ' '; echo
    java -cp ".:$jacoco" Report plain Debian taken hits.exec filtered.csv
    sort ours.csv > ours; sort theirs.csv > theirs; sort filtered.csv > filtered
    echo "$(($(wc -l < ours) - 1)) rows; $(comm -23 ours theirs | wc -l) differ; with JaCoCo's filters $(comm -23 ours filtered | wc -l) differ"
done
