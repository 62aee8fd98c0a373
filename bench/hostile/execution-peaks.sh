#!/bin/sh
# Time and peak memory of `jcov merge`, `jcov execinfo` and `jcov report` on execution data of 64 MiB, beside what the store says.
# usage: bench/hostile/execution-peaks.sh [JCOV [WORD..]]     JCOV: the built program; else the one of crates/jcov/out
#                                                             WORD: only inputs whose names have one of these words
set -e
. "$(dirname "$0")/../lib/jcov-path.sh"
[ $# -eq 0 ] || shift
echo "MB is 1,000,000 bytes; load before: $(cut -d' ' -f1 /proc/loadavg)"
python3 "$top/bench/hostile/execution_peaks.py" "$jcov" "$@"
