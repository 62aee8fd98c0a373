#!/bin/sh
# Processor time and peak memory of `jcov` on inputs that are made to cost much, beside what they are to be: class files whose frames,
# switches, exception rows, names or instructions are as many or as long as the format allows, names that fall into one place of a
# hash table, programs whose turns and entries cost much, and execution data whose ids share one bucket.
# usage: bench/hostile/inputs.sh [JCOV [WORD..]]      JCOV: the built program; else the one of crates/jcov/out
#                                                     WORD: only inputs whose names have one of these words
# COLLIDING names a folder for the names that collide, which are looked for where they aren't there; MEMORY and SECONDS are what a run
# may take at most.
set -e
. "$(dirname "$0")/../lib/jcov-path.sh"
[ $# -eq 0 ] || shift
echo "MB is 1,000,000 bytes; load before: $(cut -d' ' -f1 /proc/loadavg)"
python3 "$top/bench/hostile/inputs.py" "$jcov" "$@"
