import java.io.FileInputStream;
import java.io.IOException;
import java.lang.management.ManagementFactory;
import java.lang.management.ThreadMXBean;
import java.lang.reflect.Constructor;
import java.nio.file.Files;
import java.nio.file.Path;
import java.util.ArrayList;
import java.util.List;
import org.jacoco.core.analysis.Analyzer;
import org.jacoco.core.analysis.CoverageBuilder;
import org.jacoco.core.data.ExecutionDataStore;
import org.jacoco.core.instr.Instrumenter;
import org.jacoco.core.runtime.OfflineInstrumentationAccessGenerator;
import org.jacoco.core.tools.ExecFileLoader;

/**
 * The user time that JaCoCo's library takes for class files in memory, on one thread, once it is warm.
 *
 * usage: Warm instrument ROUNDS LIST        instruments the class files that LIST names
 *        Warm report ROUNDS LIST EXEC       analyses them beside the execution data EXEC, without writing a report
 *
 * Each round takes all files. Prints the least user time of the thread, in seconds, of the rounds behind the first ROUNDS.
 */
public final class Warm {
    private static final String RUNTIME = "org/jacoco/agent/rt/internal/Offline";
    private static final int MEASURED = 5;

    private interface Round {
        void run(List<byte[]> classes) throws Exception;
    }

    public static void main(String[] args) throws Exception {
        int rounds = Integer.parseInt(args[1]);
        List<byte[]> classes = new ArrayList<>();
        for (String path : Files.readAllLines(Path.of(args[2]))) {
            classes.add(Files.readAllBytes(Path.of(path)));
        }
        Round round = args[0].equals("instrument") ? instrumenting() : analysing(args[3]);
        ThreadMXBean threads = ManagementFactory.getThreadMXBean();
        long least = Long.MAX_VALUE;
        for (int k = 0; k < rounds + MEASURED; k++) {
            long begin = threads.getCurrentThreadUserTime();
            round.run(classes);
            long spent = threads.getCurrentThreadUserTime() - begin;
            if (k >= rounds) {
                least = Math.min(least, spent);
            }
        }
        System.out.printf("%.3f%n", least / 1e9);
    }

    private static Round instrumenting() throws Exception {
        Constructor<OfflineInstrumentationAccessGenerator> named =
                OfflineInstrumentationAccessGenerator.class.getDeclaredConstructor(String.class);
        named.setAccessible(true);
        Instrumenter instrumenter = new Instrumenter(named.newInstance(RUNTIME));
        return classes -> {
            for (byte[] bytes : classes) {
                instrumenter.instrument(bytes, "");
            }
        };
    }

    private static Round analysing(String exec) throws IOException {
        ExecFileLoader loader = new ExecFileLoader();
        try (FileInputStream in = new FileInputStream(exec)) {
            loader.load(in);
        }
        ExecutionDataStore store = loader.getExecutionDataStore();
        return classes -> {
            CoverageBuilder builder = new CoverageBuilder();
            Analyzer analyzer = new Analyzer(store, builder);
            for (byte[] bytes : classes) {
                analyzer.analyzeClass(bytes, "");
            }
        };
    }
}
