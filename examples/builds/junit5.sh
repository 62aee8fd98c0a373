#!/bin/sh
# Tests of JUnit 5 over instrumented classes, by its console starter.
# usage: examples/builds/junit5.sh [JCOV]      wants a JDK and the package junit5
set -e
. "$(dirname "$0")/begin.sh"
. "$top/examples/builds/java.sh"
cat > src/PriceTest.java <<'JAVA'
import static org.junit.jupiter.api.Assertions.assertEquals;

import org.junit.jupiter.api.Test;
import shop.Price;

class PriceTest {
    @Test
    void negativePrices() {
        assertEquals(5, Price.abs(-5));
    }
}
JAVA
path=
for jar in junit-jupiter-api junit-jupiter-engine junit-platform-commons junit-platform-engine junit-platform-launcher \
    junit-platform-console junit-platform-reporting opentest4j opentest4j-reporting-events opentest4j-reporting-schema apiguardian-api picocli; do
    path=$path:$jars/$jar.jar
done
mkdir tests
javac --release 8 -nowarn -cp "classes$path" -d tests src/PriceTest.java 2> said

jcov instrument --dest inst $(find classes -type d | sed 's,$,/,' | sort)
java -cp "inst/classes:classes:tests:runtime$path" RunCovered test.exec \
    org.junit.platform.console.ConsoleLauncher --select-class PriceTest > log
grep 'tests successful' log
jcov report --csv report.csv --exec test.exec $(find classes -type d | sed 's,$,/,' | sort)
tail -n 1 report.csv
