import java.io.ByteArrayOutputStream;
import java.io.DataOutputStream;
import java.io.File;
import java.io.FileInputStream;
import java.io.FileOutputStream;
import java.io.OutputStream;
import java.util.ArrayList;
import java.util.LinkedHashMap;
import java.util.List;
import java.util.Map;
import java.util.Random;
import java.util.TreeMap;
import org.jacoco.core.data.ExecutionData;
import org.jacoco.core.data.ExecutionDataReader;
import org.jacoco.core.data.ExecutionDataWriter;
import org.jacoco.core.data.SessionInfo;
import org.jacoco.core.tools.ExecFileLoader;

/**
 * Execution data by JaCoCo's own library: files that its writer makes, their union by its loader, and
 * what its reader says of a file.
 */
public final class ExecutionFiles {
    private static final String[] NAMES = {"demo/Plain", "demo/Gr\u00fc\u00dfe", "\u65e5\u672c/\u8a9e", "a/\ud83d\ude00", "zero/\u0000"};

    public static void main(String[] args) throws Exception {
        switch (args[0]) {
            case "make" -> make(new File(args[1]), Long.parseLong(args[2]), Integer.parseInt(args[3]));
            case "fill" -> fill(new File(args[1]), Integer.parseInt(args[2]), Long.parseLong(args[3]));
            case "merge" -> merge(args);
            case "info" -> info(args);
            case "dump" -> dump(args[1]);
            default -> throw new IllegalArgumentException(args[0]);
        }
    }

    /** The name and the number of probes that every record of an id has. */
    private static ExecutionData dataOf(long id, Random random, boolean other) {
        String name = NAMES[(int) Math.floorMod(id, (long) NAMES.length)] + id;
        int[] counts = {1, 7, 8, 9, 127, 128, 129, 300, 16383, 16384, 40000, 3};
        boolean[] probes = new boolean[counts[(int) Math.floorMod(id, (long) counts.length)] + (other ? 1 : 0)];
        for (int k = 0; k < 1 + random.nextInt(probes.length); k++) {
            probes[random.nextInt(probes.length)] = true;
        }
        return new ExecutionData(id * 0x9E3779B97F4A7C15L, name, probes);
    }

    /** Files of one to four dumps behind each other; the last one clashes with the first. */
    private static void make(File folder, long seed, int files) throws Exception {
        Random random = new Random(seed);
        for (int k = 0; k < files; k++) {
            try (OutputStream out = new FileOutputStream(new File(folder, k + ".exec"))) {
                int dumps = random.nextInt(5);
                for (int d = 0; d < dumps; d++) {
                    ExecutionDataWriter writer = new ExecutionDataWriter(out);
                    for (int s = random.nextInt(3); s > 0; s--) {
                        writer.visitSessionInfo(new SessionInfo(NAMES[random.nextInt(NAMES.length)] + s, random.nextInt(9), random.nextInt(9)));
                    }
                    for (int c = random.nextInt(60); c > 0; c--) {
                        writer.visitClassExecution(dataOf(random.nextInt(90), random, false));
                    }
                }
            }
        }
        for (String name : new String[] {"base", "clash"}) {
            try (OutputStream out = new FileOutputStream(new File(folder, name + ".exec"))) {
                new ExecutionDataWriter(out).visitClassExecution(dataOf(7, random, name.equals("clash")));
            }
        }
    }

    /** One file of records of so many probes, of about so many bytes. */
    private static void fill(File file, int probes, long size) throws Exception {
        try (OutputStream out = new java.io.BufferedOutputStream(new FileOutputStream(file))) {
            ExecutionDataWriter writer = new ExecutionDataWriter(out);
            boolean[] bits = new boolean[probes];
            bits[0] = true;
            long each = 1 + 8 + 2 + 13 + (probes < 128 ? 1 : 3) + (probes + 7) / 8;
            for (long k = 0; (k + 1) * each + 5 <= size; k++) {
                writer.visitClassExecution(new ExecutionData(k * 0x9E3779B97F4A7C15L, "demo/Measured", bits));
            }
        }
    }

    private static void merge(String[] args) throws Exception {
        ExecFileLoader loader = new ExecFileLoader();
        for (int k = 2; k < args.length; k++) {
            loader.load(new File(args[k]));
        }
        loader.save(new File(args[1]), false);
    }

    private static byte[] modified(String text) throws Exception {
        ByteArrayOutputStream bytes = new ByteArrayOutputStream();
        new DataOutputStream(bytes).writeUTF(text);
        byte[] all = bytes.toByteArray();
        return java.util.Arrays.copyOfRange(all, 2, all.length);
    }

    private static void read(String path, List<SessionInfo> sessions, Map<Long, ExecutionData> records) throws Exception {
        try (FileInputStream in = new FileInputStream(path)) {
            ExecutionDataReader reader = new ExecutionDataReader(in);
            reader.setSessionInfoVisitor(sessions::add);
            reader.setExecutionDataVisitor(data -> {
                ExecutionData there = records.get(data.getId());
                if (there == null) {
                    records.put(data.getId(), data);
                } else {
                    there.merge(data);
                }
            });
            while (reader.read()) {
            }
        }
    }

    /** What `jcov execinfo` prints, by JaCoCo's reader. */
    private static void info(String[] args) throws Exception {
        ByteArrayOutputStream out = new ByteArrayOutputStream();
        for (int k = 1; k < args.length; k++) {
            List<SessionInfo> sessions = new ArrayList<>();
            Map<Long, ExecutionData> records = new LinkedHashMap<>();
            read(args[k], sessions, records);
            out.write(("file " + args[k] + "\n").getBytes("UTF-8"));
            for (SessionInfo s : sessions) {
                out.write("session ".getBytes("UTF-8"));
                out.write(modified(s.getId()));
                out.write((" start " + s.getStartTimeStamp() + " dump " + s.getDumpTimeStamp() + "\n").getBytes("UTF-8"));
            }
            for (ExecutionData d : records.values()) {
                int hits = 0;
                for (boolean probe : d.getProbes()) {
                    hits += probe ? 1 : 0;
                }
                out.write(String.format("class %016x ", d.getId()).getBytes("UTF-8"));
                out.write(modified(d.getName()));
                out.write((" " + hits + " of " + d.getProbes().length + "\n").getBytes("UTF-8"));
            }
        }
        System.out.write(out.toByteArray());
        System.out.flush();
    }

    /** A file's sessions in order, and its records by id, with all their bits. */
    private static void dump(String path) throws Exception {
        List<SessionInfo> sessions = new ArrayList<>();
        Map<Long, ExecutionData> records = new TreeMap<>();
        read(path, sessions, records);
        StringBuilder text = new StringBuilder();
        for (SessionInfo s : sessions) {
            text.append("session ").append(s.getId()).append(' ').append(s.getStartTimeStamp()).append(' ').append(s.getDumpTimeStamp()).append('\n');
        }
        for (ExecutionData d : records.values()) {
            text.append(d.getId()).append(' ').append(d.getName()).append(' ');
            for (boolean probe : d.getProbes()) {
                text.append(probe ? '1' : '0');
            }
            text.append('\n');
        }
        System.out.write(text.toString().getBytes("UTF-8"));
        System.out.flush();
    }
}
