import java.io.IOException;
import java.lang.reflect.Constructor;
import java.nio.file.Files;
import java.nio.file.Path;
import org.jacoco.core.instr.Instrumenter;
import org.jacoco.core.runtime.OfflineInstrumentationAccessGenerator;

/**
 * JaCoCo's offline instrumentation of class files.
 *
 * usage: Instrument LIST FOLDER, where LIST has a path in each line. Writes FOLDER/PATH for each, and prints how many
 * were instrumented. A file that JaCoCo refuses is copied, and has a line on `err`. The runtime class has the name that
 * jcov writes.
 */
public final class Instrument {
    private static final String RUNTIME = "org/jacoco/agent/rt/internal/Offline";

    public static void main(String[] args) throws Exception {
        Constructor<OfflineInstrumentationAccessGenerator> named =
                OfflineInstrumentationAccessGenerator.class.getDeclaredConstructor(String.class);
        named.setAccessible(true);
        Instrumenter instrumenter = new Instrumenter(named.newInstance(RUNTIME));
        int made = 0;
        int refused = 0;
        for (String path : Files.readAllLines(Path.of(args[0]))) {
            byte[] bytes = Files.readAllBytes(Path.of(path));
            Path target = Path.of(args[1], path);
            Files.createDirectories(target.getParent());
            try {
                Files.write(target, instrumenter.instrument(bytes, path));
                made++;
            } catch (IOException error) {
                Files.write(target, bytes);
                System.err.println("refused " + path + ": " + error.getCause());
                refused++;
            }
        }
        System.out.println(made + " instrumented or unchanged, " + refused + " refused");
    }
}
