#!/bin/sh
# Time and peak memory of `jcov merge` on files of execution data that this script makes.
# usage: bench/speed/merge.sh [JCOV]      JCOV: the built program; else the one of crates/jcov/out
set -e
. "$(dirname "$0")/../lib/jcov-path.sh"
folder=$(mktemp -d)
trap 'rm -rf "$folder"' EXIT
cd "$folder"

# The best of three runs by the clock, the least of their processor times, and the largest of their peaks.
cat > measure.py <<'PY'
import os, subprocess, sys, time

jcov, source = sys.argv[1], sys.argv[2]
best, least, peak = None, None, 0
for _ in range(3):
    if os.path.exists("o"):
        os.remove("o")
    begin = time.monotonic()
    run = subprocess.Popen([jcov, "merge", "--destfile", "o", source])
    _, status, usage = os.wait4(run.pid, 0)
    taken = time.monotonic() - begin
    if status != 0:
        sys.exit("jcov ended with wait status %d" % status)
    spent = usage.ru_utime + usage.ru_stime
    best = taken if best is None else min(best, taken)
    least = spent if least is None else min(least, spent)
    peak = max(peak, usage.ru_maxrss)
size = os.path.getsize(source)
print("%.3f s  %.1f MB/s;  processor time %.3f s  %.1f MB/s;  peak %.0f MB"
      % (best, size / best / 1e6, least, size / least / 1e6, peak * 1024 / 1e6))
PY

echo "jcov merge, best of three runs; MB is 1,000,000 bytes; load before: $(cut -d' ' -f1 /proc/loadavg)"
for probes in 40 65535; do
    for size in 1048576 8388608 67108864; do
        records=$(python3 "$top/bench/lib/exec_bytes.py" in.exec "$probes" "$size")
        printf '%6d probes a record, %8d bytes, %7d records: ' "$probes" "$(wc -c < in.exec)" "$records"
        python3 measure.py "$jcov" in.exec
        cmp in.exec o
        rm -f in.exec o
    done
done
