#!/bin/sh
# A tree cut into shards for two machines, by GNU parallel over ssh: instrumented, run and reported on both, merged and joined on one.
# The answer is that of one call over the whole tree. The second machine is this one again, by an ssh server of the script's own, and
# works in a folder of its own: the two share no file, and each one that the second reads is sent.
# usage: examples/builds/machines.sh [JCOV]      JCOV: the built program; else the one of crates/jcov/out.
# Wants GNU parallel, rsync and an ssh server
set -e
. "$(dirname "$0")/begin.sh"
. "$top/examples/builds/second-machine.sh"
PARALLEL_HOME=$folder/parallel
PARALLEL_SSH="ssh -F $folder/ssh/config"
RSYNC_RSH=$PARALLEL_SSH
export PARALLEL_HOME PARALLEL_SSH RSYNC_RSH
for number in 1 2 3 4 5 6 7 8; do
    make_class tree "shop/p$number/Price"
done
find tree -name '*.class' | sort > files

# Both machines get the originals. Each instruments two shards of two files, and then gets what the other one wrote.
rsync -a tree second:
parallel -k -N 2 -j 1 -S :,second --joblog jobs jcov instrument --dest inst < files
cut -f 2 jobs | grep -q '^second$' || fail "the second machine did nothing"
[ "$(find second/inst -name '*.class' | wc -l)" -lt 8 ] || fail "the first machine did nothing"
rsync -a second:inst .
rsync -a inst second:

# A test is a run plan, here for the small machine: it is sent, and the execution data comes back.
printf 'case\nthread shop.p%s.Price.abs %s\nschedule robin 100\n' 1 -5 > one.plan
printf 'case\nthread shop.p%s.Price.abs %s\nschedule robin 100\n' 6 7 > two.plan
parallel -k -j 1 -S :,second --transferfile {}.plan --return {}.exec --cleanup \
    'cd inst && jcov run --plan ../{}.plan --destfile ../{}.exec tree/shop/p*/' ::: one two

# One merge; a report of each shard by all execution data; the CSV files joined under one header.
jcov merge --destfile all.exec one.exec two.exec
parallel -k -N 2 -j 1 -S :,second --basefile all.exec --return part-{#}.csv --cleanup \
    jcov report --csv part-{#}.csv --exec all.exec {} < files
head -n 1 part-1.csv > all.csv
tail -q -n +2 part-?.csv >> all.csv
cat all.csv

# One report over the whole tree, on one machine, has the same rows.
xargs jcov report --csv whole.csv --exec all.exec < files
sort all.csv > joined
sort whole.csv > told
cmp joined told
