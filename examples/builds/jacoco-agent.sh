#!/bin/sh
# Execution data of JaCoCo's agent, read by `jcov report --exec`: the CSV text is that of JaCoCo's library.
# usage: examples/builds/jacoco-agent.sh [JCOV]      wants a JDK and the package libjacoco-java
set -e
. "$(dirname "$0")/begin.sh"
. "$top/examples/builds/java.sh"
cp "$machine/Calc.java" src
javac --release 8 -nowarn -d classes src/Calc.java 2> said

# The program runs as it was compiled; nothing is instrumented before.
(mkdir agent && cd agent && jar xf $jars/org.jacoco.agent.jar jacocoagent.jar)
java -javaagent:agent/jacocoagent.jar=destfile=agent.exec -cp classes Calc -5 -7
jcov report --csv ours.csv --exec agent.exec $(find classes -type d | sed 's,$,/,' | sort)
jcov execinfo agent.exec | grep ' Calc '
cat ours.csv

# JaCoCo's own report of the same data, with all its filters.
cat > Csv.java <<'JAVA'
import java.io.File;
import java.io.FileOutputStream;
import org.jacoco.core.analysis.Analyzer;
import org.jacoco.core.analysis.CoverageBuilder;
import org.jacoco.core.tools.ExecFileLoader;
import org.jacoco.report.IReportVisitor;
import org.jacoco.report.csv.CSVFormatter;

public class Csv {
    public static void main(String[] words) throws Exception {
        ExecFileLoader data = new ExecFileLoader();
        data.load(new File(words[0]));
        CoverageBuilder classes = new CoverageBuilder();
        new Analyzer(data.getExecutionDataStore(), classes).analyzeAll(new File(words[1]));
        IReportVisitor report = new CSVFormatter().createVisitor(new FileOutputStream(words[2]));
        report.visitInfo(data.getSessionInfoStore().getInfos(), data.getExecutionDataStore().getContents());
        report.visitBundle(classes.getBundle("JaCoCo Coverage Report"), null);
        report.visitEnd();
    }
}
JAVA
path=$jars/org.jacoco.core.jar:$jars/org.jacoco.report.jar:$jars/asm.jar:$jars/asm-commons.jar:$jars/asm-tree.jar:$jars/asm-analysis.jar
mkdir tool
javac -nowarn -cp "$path" -d tool Csv.java 2> said
java -cp "tool:$path" Csv agent.exec classes theirs.csv
sort ours.csv > ours
sort theirs.csv > theirs
cmp ours theirs
