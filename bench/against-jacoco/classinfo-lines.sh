#!/bin/sh
# `jcov classinfo` over the class files of Debian's Java libraries, each in a run of its own, and JaCoCo's own library
# (Debian's libjacoco-java, and a JDK) over the same files: the lines of each class that isn't refused are compared.
# usage: bench/against-jacoco/classinfo-lines.sh [JCOV]      JCOV: the built program; else the one of crates/jcov/out
# JARS names other jars, parted by spaces.
set -e
here=$(cd "$(dirname "$0")" && pwd)
lib=$here/../lib
. "$lib/jcov-path.sh"
. "$lib/jacoco-path.sh"
folder=$(mktemp -d)
trap 'rm -rf "$folder"' EXIT
cd "$folder"
javac -encoding UTF-8 -cp "$jacoco" -d . "$here/ProbeCounts.java" "$here/Verify.java"
python3 "$lib/unpack.py" . ${JARS:-/usr/share/java/*.jar}
while read -r path; do
    "$jcov" classinfo "$path" 2>&1 || [ $? -eq 1 ]
done < paths > ours
java -cp ".:$jacoco" ProbeCounts left-alone paths > theirs
java -Xverify:all -Xshare:off -cp . Verify list > verdicts 2> messages || { cat messages >&2; exit 1; }
python3 "$here/compare_probes.py" list ours theirs verdicts
