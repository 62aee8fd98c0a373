#!/bin/sh
# Tests of JUnit 4 over instrumented classes, by its own starter.
# usage: examples/builds/junit4.sh [JCOV]      wants a JDK and the package junit4
set -e
. "$(dirname "$0")/begin.sh"
. "$top/examples/builds/java.sh"
cat > src/PriceTest.java <<'JAVA'
import static org.junit.Assert.assertEquals;

import org.junit.Test;
import shop.Price;

public class PriceTest {
    @Test
    public void negativePrices() {
        assertEquals(5, Price.abs(-5));
    }
}
JAVA
path=$jars/junit4.jar:$jars/hamcrest.jar
mkdir tests
javac --release 8 -nowarn -cp "classes:$path" -d tests src/PriceTest.java 2> said

jcov instrument --dest inst $(find classes -type d | sed 's,$,/,' | sort)
java -cp "inst/classes:classes:tests:runtime:$path" RunCovered test.exec org.junit.runner.JUnitCore PriceTest > log
grep '^OK' log
jcov report --csv report.csv --exec test.exec $(find classes -type d | sed 's,$,/,' | sort)
tail -n 1 report.csv
