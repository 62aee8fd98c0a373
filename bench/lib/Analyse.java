import java.nio.file.Files;
import java.nio.file.Path;
import org.jacoco.core.analysis.Analyzer;
import org.jacoco.core.data.ExecutionDataStore;

/** JaCoCo's analyzer over class files. usage: Analyse LIST, a path of a class file in each line */
public final class Analyse {
    public static void main(String[] args) throws Exception {
        long[] counted = new long[3];
        Analyzer analyzer = new Analyzer(new ExecutionDataStore(), coverage -> {
            counted[0]++;
            counted[1] += coverage.getMethodCounter().getTotalCount();
            counted[2] += coverage.getInstructionCounter().getTotalCount();
        });
        for (String path : Files.readAllLines(Path.of(args[0]))) {
            analyzer.analyzeClass(Files.readAllBytes(Path.of(path)), path);
        }
        System.out.println(counted[0] + " classes, " + counted[1] + " methods, " + counted[2] + " instructions");
    }
}
