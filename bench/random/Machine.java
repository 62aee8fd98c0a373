import java.io.ByteArrayOutputStream;
import java.io.PrintStream;
import java.lang.reflect.Field;
import java.lang.reflect.InvocationTargetException;
import java.lang.reflect.Method;
import java.lang.reflect.Modifier;
import java.nio.file.Files;
import java.nio.file.Path;
import java.util.ArrayList;
import java.util.List;

/**
 * Runs the programs of bench/random/machine_programs.py on the Java machine, and prints what `jcov run` prints of each.
 *
 * usage: Machine FOLDER, whose `list` has the programs. Each is loaded by a class loader of its own; its plan has one
 * case of one thread. The text of a program begins with a line `program NAME`.
 */
public final class Machine {
    public static void main(String[] args) throws Exception {
        PrintStream out = new PrintStream(System.out, false, "UTF-8");
        for (String line : Files.readAllLines(Path.of(args[0], "list"))) {
            String[] words = line.split(" ");
            ByteArrayOutputStream text = new ByteArrayOutputStream();
            System.setOut(new PrintStream(text, true, "UTF-8"));
            Thread thread = new Thread(null, () -> run(Path.of(args[0]), words), "program", 1 << 20);
            thread.start();
            thread.join();
            out.print("program " + words[0] + "\ncase 1\n");
            text.writeTo(out);
        }
        out.flush();
    }

    private static void run(Path folder, String[] words) {
        try {
            Loader loader = new Loader(folder);
            List<Class<?>> classes = new ArrayList<>();
            for (int k = 1; k < words.length; k++) {
                classes.add(Class.forName(words[k].replace(".class", ""), true, loader));
            }
            String[] call = Files.readAllLines(folder.resolve(words[0] + ".plan")).get(1).split(" ");
            int dot = call[1].lastIndexOf('.');
            String end = end(Class.forName(call[1].substring(0, dot), true, loader), call[1].substring(dot + 1), call);
            System.out.print("thread 0 " + end + "\n");
            for (Class<?> each : classes) {
                putStatics(each);
            }
        } catch (Throwable error) {
            System.out.print("no run: " + error + "\n");
        }
    }

    /** Calls the method of that name with the numbers behind it. */
    private static String end(Class<?> owner, String name, String[] call) throws Exception {
        for (Method method : owner.getDeclaredMethods()) {
            if (method.getName().equals(name)) {
                method.setAccessible(true);
                Class<?>[] types = method.getParameterTypes();
                Object[] values = new Object[types.length];
                for (int k = 0; k < values.length; k++) {
                    values[k] = value(types[k], Long.parseLong(call[k + 2]));
                }
                try {
                    Object result = method.invoke(null, values);
                    return method.getReturnType() == void.class ? "returned" : "returned " + shown(result);
                } catch (InvocationTargetException error) {
                    return "threw " + error.getCause().getClass().getName();
                }
            }
        }
        return "no method";
    }

    private static Object value(Class<?> type, long number) {
        if (type == boolean.class) {
            return number != 0;
        }
        if (type == byte.class) {
            return (byte) number;
        }
        if (type == short.class) {
            return (short) number;
        }
        if (type == char.class) {
            return (char) number;
        }
        return type == int.class ? (Object) (int) number : (Object) number;
    }

    private static String shown(Object value) {
        if (value instanceof Boolean) {
            return (Boolean) value ? "1" : "0";
        }
        if (value instanceof Character) {
            return "" + (int) (Character) value;
        }
        return value == null ? "null" : value instanceof Number ? value.toString() : "ref";
    }

    private static void putStatics(Class<?> owner) throws Exception {
        for (Field field : owner.getDeclaredFields()) {
            if (Modifier.isStatic(field.getModifiers()) && field.getType().isPrimitive()) {
                field.setAccessible(true);
                System.out.print("static " + owner.getName() + "." + field.getName() + " " + shown(field.get(null)) + "\n");
            }
        }
    }

    /** Defines the classes of a folder. */
    private static final class Loader extends ClassLoader {
        private final Path folder;

        Loader(Path folder) {
            super(Machine.class.getClassLoader());
            this.folder = folder;
        }

        @Override
        protected Class<?> findClass(String name) throws ClassNotFoundException {
            try {
                byte[] bytes = Files.readAllBytes(folder.resolve(name + ".class"));
                return defineClass(name, bytes, 0, bytes.length);
            } catch (java.io.IOException error) {
                throw new ClassNotFoundException(name, error);
            }
        }
    }
}
