#!/bin/sh
# The user time of `jcov instrument` and `jcov report` on one processor, beside that of JaCoCo's library (Debian's
# libjacoco-java, and a JDK) on one warm thread, over the class files of Debian's Java libraries that both take, one of each name.
# usage: bench/speed/warm-jacoco.sh [JCOV]      JCOV: the built program; else the one of crates/jcov/out
# The time of jcov has in it the start of the program and all reading and writing; that of JaCoCo is the least of five rounds over
# files in memory, behind ROUNDS others (else 10). JARS names other jars, parted by spaces.
set -e
here=$(cd "$(dirname "$0")" && pwd)
lib=$here/../lib
. "$lib/jcov-path.sh"
. "$lib/jacoco-path.sh"
jacoco=$jacoco:/usr/share/java/org.jacoco.report.jar:/usr/share/java/asm-analysis.jar
rounds=${ROUNDS:-10}
folder=$(mktemp -d -p /dev/shm)
trap 'rm -rf "$folder"' EXIT
cd "$folder"
javac -encoding UTF-8 -cp "$jacoco" -d . "$lib/Report.java" "$here/Warm.java"
python3 "$lib/unpack.py" . ${JARS:-/usr/share/java/*.jar}
xargs "$jcov" report --csv all.csv < paths > lines 2> refused
python3 - <<'PY'
import os, re
refused = {line.split()[1].rstrip(":") for line in open("refused")}
names, size = set(), 0
with open("taken", "w") as taken:
    for line in open("list"):
        path, jar, entry = line.rstrip("\n").split("\t")
        name = re.sub(r"^META-INF/versions/\d+/", "", entry)
        if path not in refused and name not in names and not name.endswith("module-info.class"):
            names.add(name)
            size += os.path.getsize(path)
            taken.write(path + "\n")
print("%d class files, %d bytes" % (len(names), size))
PY
java -cp ".:$jacoco" Report hits 1 taken hits.exec
cat > measure.py <<'PY'
import os, resource, subprocess, sys

jcov, jacoco, rounds = sys.argv[1:]
os.sched_setaffinity(0, {min(os.sched_getaffinity(0))})
paths = open("taken").read().split()


def of_jcov(commands):
    least = None
    for _ in range(3):
        spent = 0.0
        for words in commands:
            run = subprocess.Popen(words, stdout=subprocess.DEVNULL)
            _, status, usage = os.wait4(run.pid, 0)
            if status != 0:
                sys.exit("%s ended with wait status %d" % (words[:2], status))
            spent += usage.ru_utime
        least = spent if least is None else min(least, spent)
    return least


def of_jacoco(what, *words):
    run = ["java", "-XX:+UseSerialGC", "-cp", ".:" + jacoco, "Warm", what, rounds, "taken", *words]
    return float(subprocess.run(run, check=True, capture_output=True, text=True).stdout)


batches = [[jcov, "instrument", "--dest", "made", *paths[k:k + 256]] for k in range(0, len(paths), 256)]
report = [[jcov, "report", "--csv", "ours.csv", "--exec", "hits.exec", *paths]]
for what, commands, words in [("instrument", batches, []), ("report", report, ["hits.exec"])]:
    ours, theirs = of_jcov(commands), of_jacoco(what, *words)
    print("%s: jcov %.3f s, JaCoCo %.3f s of user time: %.2f times" % (what, ours, theirs, ours / theirs))
PY
python3 measure.py "$jcov" "$jacoco" "$rounds"
