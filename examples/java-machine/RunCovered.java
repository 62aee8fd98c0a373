import java.io.FileOutputStream;
import java.io.IOException;
import java.io.OutputStream;
import java.lang.reflect.Method;
import java.util.Arrays;
import org.jacoco.agent.rt.internal.Offline;

/**
 * Runs the `main` of an instrumented class on a Java machine, and writes the execution data when the machine ends.
 *
 * usage: java -cp FOLDERS RunCovered EXEC CLASS WORD..
 */
public final class RunCovered {
    public static void main(String[] words) throws Exception {
        if (words.length < 2) {
            System.err.println("usage: java -cp FOLDERS RunCovered EXEC CLASS WORD..");
            System.exit(2);
        }
        String exec = words[0];
        Runtime.getRuntime().addShutdownHook(new Thread(() -> write(exec)));
        Method main = Class.forName(words[1]).getMethod("main", String[].class);
        main.setAccessible(true);
        main.invoke(null, (Object) Arrays.copyOfRange(words, 2, words.length));
    }

    private static void write(String exec) {
        try (OutputStream out = new FileOutputStream(exec)) {
            Offline.write("run", out);
        } catch (IOException error) {
            System.err.println("cannot write " + exec + ": " + error.getMessage());
        }
    }
}
