#!/bin/sh
# Whether two builds of `jcov` give the same, byte for byte, over the class files of Debian's Java libraries: all that `classinfo`,
# `instrument`, `report` and `merge` write, print and answer.
# usage: bench/against-jacoco/same-output.sh ONE OTHER      ONE, OTHER: built programs
# JARS names other jars, parted by spaces. The execution data are of random hits (lib/Report.java, a JDK and Debian's libjacoco-java).
set -e
here=$(cd "$(dirname "$0")" && pwd)
lib=$here/../lib
[ $# -eq 2 ] || { sed -n '2,5s/^# //p' "$0" >&2; exit 2; }
one=$(realpath "$1") other=$(realpath "$2")
. "$lib/jacoco-path.sh"
jacoco=$jacoco:/usr/share/java/org.jacoco.report.jar:/usr/share/java/asm-analysis.jar
folder=$(mktemp -d)
trap 'rm -rf "$folder"' EXIT
cd "$folder"
javac -encoding UTF-8 -cp "$jacoco" -d . "$lib/Report.java"
python3 "$lib/unpack.py" . ${JARS:-/usr/share/java/*.jar}
"$one" report --csv all.csv $(cat paths) 2> refused > /dev/null
python3 - <<'PY'
refused = {line.split()[1].rstrip(":") for line in open("refused")}
paths = open("paths").read().split()
with open("taken", "w") as taken:
    taken.write("".join(path + "\n" for path in paths if path not in refused))
print("%d class files, %d refused" % (len(paths), len(refused)))
PY
for seed in 1 2; do java -cp ".:$jacoco" Report hits "$seed" taken "hits$seed.exec"; done

# All that a program gives: its files below its own folder, and what each run printed and answered.
gives() {
    rm -rf out && mkdir out
    n=0
    xargs -n 256 echo < paths > batches
    while read -r batch; do
        n=$((n + 1))
        for command in "instrument --dest out/made" "classinfo"; do
            name=out/$n-${command%% *}
            "$1" $command $batch > "$name.out" 2> "$name.err" && status=0 || status=$?
            echo "$status" > "$name.status"
        done
    done < batches
    # classinfo ends at the first file that it refuses, so each of those that it takes is asked for too
    xargs "$1" classinfo < taken > out/classinfo.out 2> out/classinfo.err || echo "$?" > out/classinfo.status
    xargs "$1" report --csv out/report.csv --exec hits1.exec < taken > out/report.out 2> out/report.err || echo "$?" > out/report.status
    "$1" merge --destfile out/merged.exec hits1.exec hits2.exec > out/merge.out 2> out/merge.err || echo "$?" > out/merge.status
    rm -rf "$2" && mv out "$2"
}
gives "$one" one
gives "$other" other
python3 - <<'PY'
import os


def files(top):
    return {os.path.relpath(os.path.join(at, name), top) for at, _, names in os.walk(top) for name in names}


def text(path):
    with open(path, "rb") as file:
        return file.read()


ones, others = files("one"), files("other")
differ = sorted(name for name in ones & others if text("one/" + name) != text("other/" + name))
size = sum(os.path.getsize("one/" + name) for name in ones)
for name in sorted(ones ^ others) + differ:
    print("differs: " + name)
print("%d files, %d bytes; %d stand on one side alone, %d differ" % (len(ones), size, len(ones ^ others), len(differ)))
raise SystemExit(1 if differ or ones ^ others else 0)
PY
