#!/bin/sh
# Instruments the class files of Debian's Java libraries, and lets the Java machine verify and link each of them beside
# the class `Offline` of examples/java-machine. Then it times `jcov instrument` and JaCoCo's own `Instrumenter` (Debian's
# libjacoco-java, and a JDK) over the same files, which each reads and writes.
# usage: bench/against-jacoco/instrument-verify.sh [JCOV]      JCOV: the built program; else the one of crates/jcov/out
# PROGRAM names a program that is run as `PROGRAM DIR FILE..` in place of `jcov instrument --dest DIR FILE..`, as that
# of bench/against-jacoco/instrument.txt. JARS names other jars, parted by spaces, and MODULES modules of the JDK whose
# classes are taken too. With LEAST only classes from this major version on are instrumented, and the others are there
# as they are. WITHOUT_TIMES=1 leaves the times out.
set -e
here=$(cd "$(dirname "$0")" && pwd)
lib=$here/../lib
[ -n "$PROGRAM" ] || . "$lib/jcov-path.sh"
. "$lib/jacoco-path.sh"
command=${PROGRAM:-$jcov instrument --dest}
folder=$(mktemp -d)
trap 'rm -rf "$folder"' EXIT
cd "$folder"
javac -encoding UTF-8 -cp "$jacoco" -d . "$here/Verify.java" "$lib/Instrument.java"
javac -d runtime "$here/../../examples/java-machine/org/jacoco/agent/rt/internal/Offline.java"
for module in $MODULES; do
    jimage extract --dir=modules --include "glob:/$module/**" \
        "$(dirname "$(dirname "$(readlink -f "$(command -v javac)")")")/lib/modules"
    rm -f "modules/$module/module-info.class"
done
python3 "$lib/unpack.py" . ${JARS:-/usr/share/java/*.jar} $(for module in $MODULES; do echo "modules/$module"; done)
if [ -n "$LEAST" ]; then
    mkdir made
    cp -r c made/c
    python3 - "$LEAST" <<'PY'
import sys

paths = [path for path in open("paths").read().split() if open(path, "rb").read(8)[6:] >= int(sys.argv[1]).to_bytes(2, "big")]
print("%d of them from version %s on" % (len(paths), sys.argv[1]))
open("paths", "w").write("".join(path + "\n" for path in paths))
PY
fi

# The runtime class and its inner class stand beside those of the jars.
find runtime -name '*.class' | while read -r path; do
    printf '%s\t%s\t%s\n' "$path" runtime "${path#runtime/}"
done > offline
xargs -n 256 $command made < paths > lines 2> refusals
cat list offline > originals
{ sed 's|^|made/|' list; cat offline; } > instrumented
for what in originals instrumented; do
    java -Xverify:all -Xshare:off -cp . Verify "$what" | sed 's|^made/||' > "$what-answers" 2> "$what-errors"
done

cat > count.py <<'PY'
import collections


def contents(path):
    with open(path, "rb") as file:
        return file.read()


def answers(path):
    return dict(line.rstrip("\n").split(" ", 1) for line in open(path))


paths = open("paths").read().split()
done = {line.split()[1]: line.split()[0] for line in open("lines")}
refused = {line.split()[1].rstrip(":"): line.split()[2] for line in open("refusals")}
before, after = answers("originals-answers"), answers("instrumented-answers")
missing = [path for path in paths if (path in done) == (path in refused)]
others = [path for path in paths if done.get(path) != "instrumented" and contents(path) != contents("made/" + path)]
same = [path for path in paths if done.get(path) == "instrumented" and contents(path) == contents("made/" + path)]
print("%d class files: %d instrumented, %d unchanged, %d refused; %d without one line, %d copied otherwise, %d not changed"
      % (len(paths), list(done.values()).count("instrumented"), list(done.values()).count("unchanged"), len(refused),
         len(missing), len(others), len(same)))
for kind, count in sorted(collections.Counter(refused.values()).items()):
    print("refused, %s: %d" % (kind, count))
for state in ("instrumented", "unchanged"):
    linked = collections.Counter((before[path].split()[0], after[path].split()[0]) for path in paths if done.get(path) == state)
    for (old, new), count in sorted(linked.items()):
        print("%s: %d that the machine answers %s before and %s after" % (state, count, old, new))
for path in paths:
    if before[path] != after[path]:
        print("%s: %s, and then %s" % (path, before[path], after[path]))
PY
python3 count.py
[ -z "$WITHOUT_TIMES" ] || exit 0

# Each run three times over, the best of the three.
cat > measure.py <<'PY'
import os, subprocess, sys, time

command, jacoco = sys.argv[1].split(), sys.argv[2]
paths = open("paths").read().split()
size = sum(os.path.getsize(path) for path in paths)


def best_of_three(name, commands):
    best, least, peak = None, None, 0
    for _ in range(3):
        begin, spent = time.monotonic(), 0.0
        for words in commands:
            run = subprocess.Popen(words, stdout=subprocess.DEVNULL, stderr=subprocess.DEVNULL)
            _, status, usage = os.wait4(run.pid, 0)
            if status != 0:
                sys.exit("%s ended with wait status %d" % (name, status))
            spent += usage.ru_utime + usage.ru_stime
            peak = max(peak, usage.ru_maxrss)
        clock = time.monotonic() - begin
        best = clock if best is None else min(best, clock)
        least = spent if least is None else min(least, spent)
    print("%s: %.3f s  %.1f MB/s;  processor time %.3f s  %.1f MB/s;  peak %.0f MB"
          % (name, best, size / best / 1e6, least, size / least / 1e6, peak * 1024 / 1e6))


batches = [command + ["made"] + paths[k:k + 256] for k in range(0, len(paths), 256)]
best_of_three("%s, %d runs" % (os.path.basename(command[0]), len(batches)), batches)
best_of_three("JaCoCo's Instrumenter, one run", [["java", "-cp", ".:" + jacoco, "Instrument", "paths", "theirs"]])
PY
echo "best of three runs; MB is 1,000,000 bytes; load before: $(cut -d' ' -f1 /proc/loadavg)"
python3 measure.py "$command" "$jacoco"
