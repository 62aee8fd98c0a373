import java.io.BufferedReader;
import java.io.DataInputStream;
import java.io.ByteArrayInputStream;
import java.io.PrintStream;
import java.nio.file.Files;
import java.nio.file.Path;
import java.util.ArrayList;
import java.util.HashMap;
import java.util.List;
import java.util.Map;
import java.util.TreeMap;

/**
 * What the Java machine says of class files: each is defined by a class loader of its jar and linked, which
 * verifies it, and isn't initialized. Run it with `-Xverify:all`.
 *
 * usage: Verify LIST [machine], where each line of LIST has a path, a jar and the entry's name there, parted by tabs.
 * With `machine` the classes are the machine's own, and are linked where they stand.
 * Prints for each file `PATH loaded`, `PATH lacks CLASS` where another class wasn't found, or `PATH refused ERROR`.
 */
public final class Verify {
    /** A class of some jar that isn't there by the same name in an earlier one. */
    private static final Map<String, Path> ALL = new HashMap<>();

    /** The classes of one jar, or of one folder of versions of it: its own first, then those of the jar, then all. */
    private static final class Jar extends ClassLoader {
        final Map<String, Path> own = new HashMap<>();
        final Jar base;

        Jar(Jar base) {
            super(ClassLoader.getPlatformClassLoader());
            this.base = base;
        }

        private Path find(String name) {
            Path found = own.get(name);
            if (found == null && base != null) {
                found = base.own.get(name);
            }
            return found == null ? ALL.get(name) : found;
        }

        @Override
        protected Class<?> loadClass(String name, boolean resolve) throws ClassNotFoundException {
            synchronized (getClassLoadingLock(name)) {
                Class<?> there = findLoadedClass(name);
                if (there != null) {
                    return there;
                }
                Path path = find(name);
                if (path == null) {
                    return super.loadClass(name, resolve);
                }
                try {
                    byte[] bytes = Files.readAllBytes(path);
                    return defineClass(name, bytes, 0, bytes.length);
                } catch (java.io.IOException error) {
                    throw new ClassNotFoundException(name, error);
                }
            }
        }
    }

    /** The name of a class file's class, with dots. */
    static String nameOf(byte[] bytes) throws java.io.IOException {
        DataInputStream in = new DataInputStream(new ByteArrayInputStream(bytes, 8, bytes.length - 8));
        int count = in.readUnsignedShort();
        String[] texts = new String[count];
        int[] classes = new int[count];
        for (int k = 1; k < count; k++) {
            int tag = in.readUnsignedByte();
            switch (tag) {
                case 1 -> texts[k] = in.readUTF();
                case 7 -> classes[k] = in.readUnsignedShort();
                case 8, 16, 19, 20 -> in.skipBytes(2);
                case 15 -> in.skipBytes(3);
                case 5, 6 -> {
                    in.skipBytes(8);
                    k++;
                }
                default -> in.skipBytes(4);
            }
        }
        in.readUnsignedShort();
        return texts[classes[in.readUnsignedShort()]].replace('/', '.');
    }

    /** Defines the class and links it: asking for its constructors does so. */
    private static String answer(ClassLoader loader, String name) {
        try {
            Class<?> made = Class.forName(name, false, loader);
            if (loader instanceof Jar && made.getClassLoader() != loader) {
                return "lacks " + name + ": it is one of the machine's own";
            }
            made.getDeclaredConstructors();
            return "loaded";
        } catch (NoClassDefFoundError | ClassNotFoundException | TypeNotPresentException error) {
            return "lacks " + line(error);
        } catch (LinkageError | SecurityException error) {
            return "refused " + line(error);
        }
    }

    private static String line(Throwable error) {
        return error.toString().lines().findFirst().orElse("");
    }

    public static void main(String[] args) throws Exception {
        Map<String, Jar> jars = new TreeMap<>();
        List<String[]> files = new ArrayList<>();
        for (String line : Files.readAllLines(Path.of(args[0]))) {
            String[] words = line.split("\t");
            String name = nameOf(Files.readAllBytes(Path.of(words[0])));
            String versions = "META-INF/versions/";
            String jar = words[1];
            Jar base = null;
            jars.computeIfAbsent(jar, key -> new Jar(null));
            if (words[2].startsWith(versions)) {
                base = jars.get(jar);
                jar += "!" + words[2].substring(0, words[2].indexOf('/', versions.length()));
            }
            Jar of = base;
            jars.computeIfAbsent(jar, key -> new Jar(of)).own.put(name, Path.of(words[0]));
            ALL.putIfAbsent(name, Path.of(words[0]));
            files.add(new String[] {words[0], jar, name});
        }
        PrintStream out = new PrintStream(new java.io.FileOutputStream(java.io.FileDescriptor.out), false, "UTF-8");
        boolean machine = args.length > 1 && args[1].equals("machine");
        for (String[] file : files) {
            ClassLoader loader = machine ? ClassLoader.getSystemClassLoader() : jars.get(file[1]);
            out.println(file[0] + " " + answer(loader, file[2]));
        }
        out.flush();
    }
}
