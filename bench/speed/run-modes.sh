#!/bin/sh
# What `jcov run` costs with locks and with dumps, beside plain runs of the same plan: cases of a million turns, of which each eighth
# hits a probe.
# usage: bench/speed/run-modes.sh [JCOV]      JCOV: the built program; else the one of crates/jcov/out
# CASES and TURNS say how many cases (64) and turns of a case there are, and ROUNDS how often each is run (3). The machine should
# have nothing else to do: the load of the last minute is printed before and after.
set -e
here=$(cd "$(dirname "$0")" && pwd)
lib=$here/../lib
. "$lib/jcov-path.sh"
folder=$(mktemp -d)
trap 'rm -rf "$folder"' EXIT
cd "$folder"

# A method that counts down to 0: `iload_0`, `ifeq`, `iinc`, and the probe of the `goto` back.
python3 "$lib/class_bytes.py" > digits <<'CLASS'
class A 52
method 0x9 f (I)V 1 1
iload_0
ifeq 4
iinc 0 -1
goto 0
return
frame 0 int |
frame 4 int |
CLASS
python3 - "${CASES:-64}" "${TURNS:-1000000}" <<'PY'
import sys

cases, turns = int(sys.argv[1]), int(sys.argv[2])
with open("digits") as digits, open("A.class", "wb") as file:
    file.write(bytes.fromhex(digits.read()))
with open("p.txt", "w") as file:
    file.write("case\nthread A.f 2147483647\nschedule robin %d\n" % turns * cases)
PY
"$jcov" instrument --dest out A.class

# The best of the rounds by the clock, with its processor time; and whether all print the same.
cat > measure.py <<'PY'
import os, subprocess, sys, time

jcov, turns, rounds = sys.argv[1], int(sys.argv[2]), int(sys.argv[3])
modes = ["--workers 1", "--workers 1 --dumps d --every 8", "--monitors", "--workers 4", "--workers 4 --dumps d --every 8"]
first, wanted = None, None
for mode in modes:
    best = None
    for _ in range(rounds):
        with open("text", "wb") as text:
            begin = time.monotonic()
            run = subprocess.Popen([jcov, "run", "--plan", "p.txt", "--destfile", "o", *mode.split(), "out/A.class"], stdout=text)
            _, status, usage = os.wait4(run.pid, 0)
            clock = time.monotonic() - begin
        if status != 0:
            sys.exit("jcov ended with wait status %d" % status)
        printed = open("text", "rb").read()
        wanted = printed if wanted is None else wanted
        if printed != wanted:
            sys.exit("%s prints something else" % mode)
        taken = clock, usage.ru_utime + usage.ru_stime, usage.ru_maxrss
        best = taken if best is None else min(best, taken)
    first = best if first is None else first
    print("%-34s %.2f s, %.2f times as fast; processor time %.2f s; %.1f million turns a second; peak %.0f MB"
          % (mode, best[0], first[0] / best[0], best[1], turns / best[0] / 1e6, best[2] * 1024 / 1e6))
PY
echo "load $(cut -d' ' -f1 /proc/loadavg)"
mkdir d
python3 measure.py "$jcov" "$(( ${CASES:-64} * ${TURNS:-1000000} ))" "${ROUNDS:-3}"
echo "load $(cut -d' ' -f1 /proc/loadavg)"
