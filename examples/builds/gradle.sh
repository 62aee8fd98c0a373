#!/bin/sh
# A Gradle project, offline, with what Debian has: a task runs the tests of JUnit 4 over the instrumented classes.
# usage: examples/builds/gradle.sh [JCOV]      wants a JDK and the packages gradle and junit4
set -e
. "$(dirname "$0")/begin.sh"
. "$top/examples/builds/java.sh"
mkdir -p project/src/main/java/shop project/src/test/java/shop
cp src/shop/Price.java project/src/main/java/shop
cat > project/src/test/java/shop/PriceTest.java <<'JAVA'
package shop;

import static org.junit.Assert.assertEquals;

import org.junit.Test;

public class PriceTest {
    @Test
    public void negativePrices() {
        assertEquals(5, Price.abs(-5));
    }
}
JAVA
echo "rootProject.name = 'shop'" > project/settings.gradle
cat > project/build.gradle <<'GRADLE'
apply plugin: 'java'

sourceCompatibility = 8

dependencies {
    testCompile files('/usr/share/java/junit4.jar', '/usr/share/java/hamcrest.jar')
}

def original = sourceSets.main.output.classesDirs.singleFile
def instrumented = new File(buildDir, 'instrumented')

// A FILE is a relative path: each folder of the original classes by its path from the folder around them.
task instrument(type: Exec, dependsOn: classes) {
    inputs.dir original
    outputs.dir instrumented
    workingDir original.parentFile
    doFirst {
        delete instrumented
        def folders = [original]
        original.eachDirRecurse { folders << it }
        def words = folders.collect { original.parentFile.toPath().relativize(it.toPath()).toString() + '/' }
        commandLine = ['jcov', 'instrument', '--dest', instrumented.path] + words.sort()
    }
}

// The instrumented classes stand in front of the originals, and RunCovered starts JUnit's own starter.
task coveredTest(type: JavaExec, dependsOn: [instrument, testClasses]) {
    classpath = files(new File(instrumented, original.name)) + sourceSets.test.runtimeClasspath + files(runtime)
    main = 'RunCovered'
    args "$buildDir/test.exec", 'org.junit.runner.JUnitCore', 'shop.PriceTest'
}
GRADLE

GRADLE_USER_HOME=$folder/gradle
export GRADLE_USER_HOME
gradle --offline --no-daemon --quiet -p project -Pruntime="$folder/runtime" coveredTest > log 2>&1 || fail "$(cat log)"
grep -E '^(instrumented|OK)' log
cd project/build
jcov report --csv report.csv --exec test.exec $(find classes/java/main -type d | sed 's,$,/,' | sort)
tail -n 1 report.csv
