#!/bin/sh
# Throughput of `jcov classinfo` over the class files of Debian's Java libraries, and of JaCoCo's analyzer (Debian's
# libjacoco-java, and a JDK) over the same files. Files that `classinfo` refuses are left out, since one ends its run.
# usage: bench/speed/classinfo.sh [JCOV]      JCOV: the built program; else the one of crates/jcov/out
# JARS names other jars, parted by spaces.
set -e
here=$(cd "$(dirname "$0")" && pwd)
lib=$here/../lib
. "$lib/jcov-path.sh"
. "$lib/jacoco-path.sh"
folder=$(mktemp -d)
trap 'rm -rf "$folder"' EXIT
cd "$folder"
javac -encoding UTF-8 -cp "$jacoco" -d . "$lib/Analyse.java"

# Each run three times over, the best of the three.
cat > measure.py <<'PY'
import os, subprocess, sys, time

jcov, jacoco = sys.argv[1:]
paths = open("paths").read().split()
taken = [path for path in paths if subprocess.run([jcov, "classinfo", path], capture_output=True).returncode == 0]
with open("taken", "w") as out:
    out.write("\n".join(taken) + "\n")
size = sum(os.path.getsize(path) for path in taken)
print("%d class files, %d bytes; %d that are refused left out" % (len(taken), size, len(paths) - len(taken)))


def best_of_three(name, commands):
    best, least, peak = None, None, 0
    for _ in range(3):
        begin, spent = time.monotonic(), 0.0
        for command in commands:
            run = subprocess.Popen(command, stdout=subprocess.DEVNULL)
            _, status, usage = os.wait4(run.pid, 0)
            if status != 0:
                sys.exit("%s ended with wait status %d" % (name, status))
            spent += usage.ru_utime + usage.ru_stime
            peak = max(peak, usage.ru_maxrss)
        clock = time.monotonic() - begin
        best = clock if best is None else min(best, clock)
        least = spent if least is None else min(least, spent)
    print("%s: %.3f s  %.1f MB/s;  processor time %.3f s  %.1f MB/s;  peak %.0f MB"
          % (name, best, size / best / 1e6, least, size / least / 1e6, peak * 1024 / 1e6))


batches = [[jcov, "classinfo"] + taken[k:k + 256] for k in range(0, len(taken), 256)]
best_of_three("jcov classinfo, %d runs" % len(batches), batches)
best_of_three("JaCoCo's Analyzer, one run", [["java", "-cp", ".:" + jacoco, "Analyse", "taken"]])
PY

echo "best of three runs; MB is 1,000,000 bytes; load before: $(cut -d' ' -f1 /proc/loadavg)"
python3 "$lib/unpack.py" . ${JARS:-/usr/share/java/*.jar}
python3 measure.py "$jcov" "$jacoco"
