#!/bin/sh
# A Maven project, offline, with what Debian has: surefire runs the tests over the instrumented classes.
# usage: examples/builds/maven.sh [JCOV]      wants a JDK and the packages maven, junit4, libmaven-compiler-plugin-java,
# libmaven-resources-plugin-java and libsurefire-java
set -e
. "$(dirname "$0")/begin.sh"
. "$top/examples/builds/java.sh"
mkdir -p project/src/main/java/shop project/src/test/java/shop
cp src/shop/Price.java project/src/main/java/shop
cat > project/src/test/java/shop/PriceTest.java <<'JAVA'
package shop;

import static org.junit.Assert.assertEquals;

import org.junit.Test;

public class PriceTest {
    @Test
    public void negativePrices() {
        assertEquals(5, Price.abs(-5));
    }
}
JAVA
# Surefire starts the tests itself, so a listener writes the execution data when they have ended.
cat > project/src/test/java/shop/WriteCovered.java <<'JAVA'
package shop;

import java.io.FileOutputStream;
import java.io.OutputStream;
import org.junit.runner.Result;
import org.junit.runner.notification.RunListener;

public class WriteCovered extends RunListener {
    @Override
    public void testRunFinished(Result result) throws Exception {
        Class<?> runtime = Class.forName("org.jacoco.agent.rt.internal.Offline");
        try (OutputStream out = new FileOutputStream(System.getProperty("jcov.exec"))) {
            runtime.getMethod("write", String.class, OutputStream.class).invoke(null, "maven", out);
        }
    }
}
JAVA
# The newest version of a plugin in Debian's repository.
version() {
    find /usr/share/maven-repo/org/apache/maven/plugins/"$1" -name '*.jar' | sed 's,.*/\([^/]*\)/[^/]*$,\1,' | sort -V | tail -n 1
}
cat > project/pom.xml <<'XML'
<project xmlns="http://maven.apache.org/POM/4.0.0">
  <modelVersion>4.0.0</modelVersion>
  <groupId>shop</groupId>
  <artifactId>shop</artifactId>
  <version>1</version>
  <properties>
    <maven.compiler.source>8</maven.compiler.source>
    <maven.compiler.target>8</maven.compiler.target>
    <project.build.sourceEncoding>UTF-8</project.build.sourceEncoding>
    <classes>${project.build.directory}/classes</classes>
    <runtime>set by the call</runtime>
  </properties>
  <dependencies>
    <dependency><groupId>junit</groupId><artifactId>junit</artifactId><version>4.x</version><scope>test</scope></dependency>
  </dependencies>
  <build><plugins>
    <plugin><artifactId>maven-resources-plugin</artifactId><version>RESOURCES</version></plugin>
    <plugin><artifactId>maven-compiler-plugin</artifactId><version>COMPILER</version></plugin>
    <plugin>
      <artifactId>maven-surefire-plugin</artifactId><version>SUREFIRE</version>
      <configuration>
        <properties><property><name>listener</name><value>shop.WriteCovered</value></property></properties>
        <classesDirectory>${classes}</classesDirectory>
        <additionalClasspathElements><element>${runtime}</element></additionalClasspathElements>
        <systemPropertyVariables><jcov.exec>${project.build.directory}/test.exec</jcov.exec></systemPropertyVariables>
      </configuration>
    </plugin>
  </plugins></build>
</project>
XML
sed -i "s/RESOURCES/$(version maven-resources-plugin)/; s/COMPILER/$(version maven-compiler-plugin)/; s/SUREFIRE/$(version maven-surefire-plugin)/" project/pom.xml

# Compile; instrument what was compiled; run the tests over that, and nothing else that would compile anew.
call() {
    mvn -o -q -Dmaven.repo.local=/usr/share/maven-repo -f project/pom.xml -Druntime="$folder/runtime" "$@"
}
call test-compile
(cd project && jcov instrument --dest target/inst $(find target/classes -type d | sed 's,$,/,' | sort))
call -Dclasses="$folder/project/target/inst/target/classes" surefire:test
(cd project && jcov report --csv report.csv --exec target/test.exec $(find target/classes -type d | sed 's,$,/,' | sort))
tail -n 1 project/report.csv
