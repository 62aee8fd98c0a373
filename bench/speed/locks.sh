#!/bin/sh
# What turns cost that enter and leave a monitor beside 4,095 others that are held, and beside one: `jcov run --monitors` over a case
# of a million turns, of which 320,000 enter or leave.
# usage: bench/speed/locks.sh [JCOV]      JCOV: the built program; else the one of crates/jcov/out
# ROUNDS says how often each is run (3). The machine should have nothing else to do.
set -e
here=$(cd "$(dirname "$0")" && pwd)
lib=$here/../lib
. "$lib/jcov-path.sh"
folder=$(mktemp -d)
trap 'rm -rf "$folder"' EXIT
cd "$folder"

# A method that enters the monitors of so many new arrays, and then enters and leaves that of one more so often.
python3 "$lib/class_bytes.py" > digits <<'CLASS'
class L 52
method 0x9 f (II)V 2 3
iload_0
ifeq 9
iconst_1
newarray 10
dup
astore_2
monitorenter
iinc 0 -1
goto 0
iconst_1
newarray 10
astore_2
aload_2
monitorenter
aload_2
monitorexit
iinc 1 -1
iload_1
ifne 12
return
frame 0 int int |
frame 9 int int |
frame 12 int int class:[I |
CLASS
cat > measure.py <<'PY'
import os, subprocess, sys

jcov, rounds = sys.argv[1], int(sys.argv[2])
with open("digits") as digits, open("L.class", "wb") as file:
    file.write(bytes.fromhex(digits.read()))
for locks in [1, 4095]:
    with open("p.txt", "w") as file:
        file.write("case\nthread L.f %d 160000\nschedule robin 1000000\n" % locks)
    best = None
    for _ in range(rounds):
        with open("text", "wb") as text:
            run = subprocess.Popen([jcov, "run", "--monitors", "--plan", "p.txt", "--destfile", "o", "L.class"], stdout=text)
            _, status, usage = os.wait4(run.pid, 0)
        if status != 0:
            sys.exit("jcov ended with wait status %d" % status)
        taken = usage.ru_utime + usage.ru_stime
        best = taken if best is None else min(best, taken)
    print("beside %4d: processor time %.2f s, %.1f s for a million that enter or leave" % (locks, best, best * 1e6 / 320000))
PY
echo "load $(cut -d' ' -f1 /proc/loadavg)"
python3 measure.py "$jcov" "${ROUNDS:-3}"
