#!/bin/sh
# Runs two programs on the Java machine, each three times: as it is, with its classes instrumented by `jcov instrument`,
# and with its classes instrumented by JaCoCo's own `Instrumenter` (Debian's libjacoco-java and libasm-java, and a JDK).
# One is JaCoCo's analyzer with the library ASM, over the class files of a jar, the other is the JDK's compiler javac,
# over the Java files of this repository. What they print and make has to be the same each time, and the execution data
# of the last two runs, which examples/java-machine writes, are compared probe by probe.
# usage: bench/against-jacoco/instrument-run.sh [JCOV]      JCOV: the built program; else the one of crates/jcov/out
# PROGRAM names a program that is run as `PROGRAM DIR FILE..` in place of `jcov instrument --dest DIR FILE..`. JARS names
# other jars whose classes are analysed, parted by spaces.
set -e
here=$(cd "$(dirname "$0")" && pwd)
lib=$here/../lib
[ -n "$PROGRAM" ] || . "$lib/jcov-path.sh"
. "$lib/jacoco-path.sh"
command=${PROGRAM:-$jcov instrument --dest}
examples=$here/../../examples/java-machine
folder=$(mktemp -d)
trap 'rm -rf "$folder"' EXIT
cd "$folder"
javac -encoding UTF-8 -cp "$jacoco" -d runtime "$lib/Analyse.java" "$lib/Instrument.java" "$examples/RunCovered.java" \
    "$examples/org/jacoco/agent/rt/internal/Offline.java"

# Instruments the class files below the folder `classes`, into `ours` and `theirs`.
instrument() {
    (cd classes && find . -name '*.class' | sed 's|^\./||' | sort > ../names)
    (cd classes && xargs -n 256 $command ../ours < ../names) > lines 2> refusals
    (cd classes && java -cp "../runtime:$jacoco" Instrument ../names ../theirs) 2> their-refusals
}

compare() {
    python3 "$lib/compare_hits.py" ours.exec theirs.exec lines refusals their-refusals
}

echo "JaCoCo's analyzer"
python3 "$lib/unpack.py" . ${JARS:-/usr/share/java/commons-lang3.jar}
mkdir classes
for jar in $(echo "$jacoco" | tr ':' ' '); do
    (cd classes && jar xf "$jar" org)
done
instrument
java -Xverify:all -cp "classes:runtime" Analyse paths > printed
for made in ours theirs; do
    java -Xverify:all -cp "$made:classes:runtime" RunCovered "$made.exec" Analyse paths > printed-$made
    cmp printed printed-$made
done
cat printed
compare

echo "javac"
rm -rf classes ours theirs
jimage extract --dir=machine --include 'glob:/jdk.compiler/**' \
    "$(dirname "$(dirname "$(readlink -f "$(command -v javac)")")")/lib/modules"
mv machine/jdk.compiler classes
rm classes/module-info.class
instrument
words="-proc:none -encoding UTF-8 -cp $jacoco:/usr/share/java/org.jacoco.report.jar -d made"
sources="$here/../*/*.java $examples/*.java $examples/org/jacoco/agent/rt/internal/*.java"
javac $words $sources
mv made plain
# Hash tables of javac ask for hash codes that the machine draws. They are made equal in both runs.
for made in ours theirs; do
    java -XX:+UnlockExperimentalVMOptions -XX:hashCode=2 -Xverify:all --patch-module "jdk.compiler=$made" \
        --add-reads jdk.compiler=ALL-UNNAMED -cp runtime RunCovered "$made.exec" com.sun.tools.javac.Main $words $sources
    diff -r plain made
    rm -rf made
done
compare
