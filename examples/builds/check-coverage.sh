#!/bin/sh
# A step of a build server: instruments nothing and reports; fails where the answer would be less than it looks.
# usage: check-coverage.sh LEAST EXEC CSV FOLDER..      LEAST: percent of instructions; FOLDER: trees of original classes
# Statuses: 0; 1 where a class file is refused; 2 where execution data is stale; 3 below LEAST; else that of jcov, and 10.
set -u
least=$1 exec=$2 csv=$3
shift 3
folder=$(mktemp -d)
trap 'rm -rf "$folder"' EXIT
files=$(find "$@" -name '*.class' | sort)

jcov report --csv "$csv" --exec "$exec" $files 2> "$folder/refused" || exit $((10 + $?))
if [ -s "$folder/refused" ]; then
    cat "$folder/refused" >&2
    exit 1
fi

# Each class id of the execution data is that of a class file.
jcov execinfo "$exec" | sed -n 's/^class \([0-9a-f]*\) \([^ ]*\) .*/\1 \2/p' | sort -u > "$folder/ran"
jcov classinfo $files | sed -n 's/^class \([^ ]*\) id \([0-9a-f]*\) .*/\2 \1/p' | sort -u > "$folder/built"
comm -23 "$folder/ran" "$folder/built" > "$folder/stale"
if [ -s "$folder/stale" ]; then
    sed 's/^/stale: /' "$folder/stale" >&2
    exit 2
fi

# Columns 4 and 5 are missed and covered instructions, counted from the end since a name may hold commas.
awk -F, -v least="$least" 'NR > 1 { missed += $(NF - 9); covered += $(NF - 8) }
    END { all = missed + covered; part = all ? 100 * covered / all : 100
          printf "%d of %d instructions, %.1f %%\n", covered, all, part
          exit part < least ? 3 : 0 }' "$csv"
