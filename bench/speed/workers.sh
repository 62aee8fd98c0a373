#!/bin/sh
# How much sooner `jcov run` ends on more workers: a plan of 256 cases of a million turns, of which each eighth hits a probe.
# usage: bench/speed/workers.sh [JCOV]      JCOV: the built program; else the one of crates/jcov/out
# WORKERS names the numbers of workers (1 2 4), CASES and TURNS say how many cases and turns of a case there are, CLASSES how many
# classes they run in turn (1, so that all cases hit one word), and ROUNDS how often each is run (3). EVERY says behind how many
# cases a dump is taken (none). The machine should have nothing else to do: the load of the last minute is printed before and after.
set -e
here=$(cd "$(dirname "$0")" && pwd)
lib=$here/../lib
. "$lib/jcov-path.sh"
folder=$(mktemp -d)
trap 'rm -rf "$folder"' EXIT
cd "$folder"

# A method that counts down to 0: `iload_0`, `ifeq`, `iinc`, and the probe of the `goto` back.
classes=$(seq -f 'C%g' "${CLASSES:-1}")
for class in $classes; do
python3 "$lib/class_bytes.py" > "$class.digits" <<CLASS
class $class 52
method 0x9 f (I)V 1 1
iload_0
ifeq 4
iinc 0 -1
goto 0
return
frame 0 int |
frame 4 int |
CLASS
done
python3 - "${CASES:-256}" "${TURNS:-1000000}" $classes <<'PY'
import sys

cases, turns, classes = int(sys.argv[1]), int(sys.argv[2]), sys.argv[3:]
for name in classes:
    with open(name + ".digits") as digits, open(name + ".class", "wb") as file:
        file.write(bytes.fromhex(digits.read()))
with open("p.txt", "w") as file:
    for case in range(cases):
        file.write("case\nthread %s.f 2147483647\nschedule robin %d\n" % (classes[case % len(classes)], turns))
PY
"$jcov" instrument --dest out C*.class

# The best of the rounds by the clock, with its processor time; and whether all left the same bytes.
cat > measure.py <<'PY'
import glob, os, subprocess, sys, time

jcov, turns, rounds, every = sys.argv[1], int(sys.argv[2]), int(sys.argv[3]), sys.argv[4]
numbers, files = sys.argv[5].split(), sorted(glob.glob("out/*.class"))
dumps = ["--dumps", "d", "--every", every] if every else []
first, wanted = None, None
for workers in numbers:
    best = None
    for _ in range(rounds):
        with open("text", "wb") as text:
            begin = time.monotonic()
            run = subprocess.Popen([jcov, "run", "--plan", "p.txt", "--destfile", "o", *dumps, "--workers", workers, *files], stdout=text)
            _, status, usage = os.wait4(run.pid, 0)
            clock = time.monotonic() - begin
        if status != 0:
            sys.exit("jcov ended with wait status %d" % status)
        left = open("text", "rb").read() + (b"" if dumps else open("o", "rb").read())
        wanted = left if wanted is None else wanted
        if left != wanted:
            sys.exit("%s workers leave other bytes" % workers)
        taken = clock, usage.ru_utime + usage.ru_stime, usage.ru_maxrss
        best = taken if best is None else min(best, taken)
    first = best if first is None else first
    print("%2s workers: %.2f s, %.2f times as fast; processor time %.2f s; %.1f million turns a second; peak %.0f MB"
          % (workers, best[0], first[0] / best[0], best[1], turns / best[0] / 1e6, best[2] * 1024 / 1e6))
print("all left the same bytes")
PY
echo "best of the rounds; MB is 1,000,000 bytes; load before: $(cut -d' ' -f1 /proc/loadavg); processors: $(nproc)"
python3 measure.py "$jcov" $((${CASES:-256} * ${TURNS:-1000000})) "${ROUNDS:-3}" "${EVERY:-}" "${WORKERS:-1 2 4}"
echo "load after: $(cut -d' ' -f1 /proc/loadavg)"
