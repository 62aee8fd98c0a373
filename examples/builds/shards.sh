#!/bin/sh
# A tree cut into shards, which GNU parallel instruments and reports; one merge of what the tests wrote; the CSV files joined.
# The answer is that of one call over the whole tree. The tests are two run plans, on the small machine.
# usage: examples/builds/shards.sh [JCOV]      JCOV: the built program; else the one of crates/jcov/out. Wants GNU parallel
set -e
. "$(dirname "$0")/begin.sh"
for number in 1 2 3 4 5 6 7; do
    make_class tree "shop/p$number/Price"
done
find tree -name '*.class' | sort > files
printf 'case\nthread shop.p%s.Price.abs %s\nschedule robin 100\n' 1 -5 > first.plan
printf 'case\nthread shop.p%s.Price.abs %s\nschedule robin 100\n' 6 7 > second.plan

# Instrument in shards of two files, and run: each test writes execution data of its own.
parallel -k -N 2 jcov instrument --dest inst < files
(cd inst && find tree -name '*.class' | sort | xargs jcov run --plan ../first.plan --destfile ../first.exec > ../said)
(cd inst && find tree -name '*.class' | sort | xargs jcov run --plan ../second.plan --destfile ../second.exec > ../said)

# One merge; a report of each shard, by all execution data, in a file of its own; the files joined under one header.
jcov merge --destfile all.exec first.exec second.exec
parallel -k -N 2 jcov report --csv part-{#}.csv --exec all.exec {} < files
head -n 1 part-1.csv > all.csv
tail -q -n +2 part-?.csv >> all.csv
cat all.csv

# One report over the whole tree has the same rows.
xargs jcov report --csv whole.csv --exec all.exec < files
sort all.csv > joined
sort whole.csv > told
cmp joined told
