#!/bin/sh
# How many hits a second the words of a board take, beside a plain `fetch_or`: `hits.txt`, built without its proofs.
# usage: bench/speed/hits.sh [ROUNDS]      the best of so many rounds is the one to read (3)
set -e
here=$(cd "$(dirname "$0")" && pwd)
lib=$here/../lib
folder=$(mktemp -d)
trap 'rm -rf "$folder"' EXIT
"$lib/build-unproved.py" bench_hits "$folder/hits" "$here/hits.txt" jc_board jc_bytes jc_programs atomic_table
echo "load before: $(cut -d' ' -f1 /proc/loadavg)"
for _ in $(seq 1 "${1:-3}"); do
    "$folder/hits"
done
