#!/bin/sh
# Pages with coloured lines of README's example: `jcov lines` says which lines were reached, lcov-trace.sh makes LCOV's tracefile
# of that, and genhtml makes the pages.
# usage: examples/builds/pages.sh [JCOV [FOLDER]]      FOLDER: a new folder for the pages, which else are removed with the rest
set -e
case $2 in
    "" | /*) pages=${2:-html} ;;
    *) pages=$PWD/$2 ;;
esac
. "$(dirname "$0")/begin.sh"
mkdir -p src/demo
cat > src/demo/Calc.java <<'JAVA'
package demo;
class Calc {
    static int abs(int i) {
        return i < 0 ? -i : i;
    }
    static void show(int i) {
        System.out.println(abs(i));
    }
}
JAVA
javac --release 8 -nowarn -d . src/demo/Calc.java 2> said
printf 'case\nthread demo.Calc.abs -5\nthread demo.Calc.show -7\nschedule robin 100\n' > plan
jcov cover --dest out --plan plan --destfile calc.exec --csv calc.csv demo/ > said
jcov lines --exec calc.exec demo/ > lines
cat lines
sh "$top/examples/builds/lcov-trace.sh" src < lines > trace
genhtml --quiet --output-directory "$pages" trace
grep -q '<span class="lineCov">' "$pages/demo/Calc.java.gcov.html" || fail "no line is marked as reached"
