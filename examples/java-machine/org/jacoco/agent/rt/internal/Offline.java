package org.jacoco.agent.rt.internal;

import java.io.DataOutputStream;
import java.io.IOException;
import java.io.OutputStream;
import java.util.LinkedHashMap;
import java.util.Map;

/**
 * The class that instrumented classes ask for their probe arrays.
 *
 * Its name is the one that `jcov instrument` writes. It keeps one array for each class id, and writes what the arrays
 * hold as execution data of JaCoCo's format 0x1007: a header, a session and a record for each class.
 */
public final class Offline {
    private static final Map<Long, Probed> CLASSES = new LinkedHashMap<>();
    private static final long START = System.currentTimeMillis();

    /** The name and the probes of a class. */
    private static final class Probed {
        final String name;
        final boolean[] probes;

        Probed(String name, int count) {
            this.name = name;
            this.probes = new boolean[count];
        }
    }

    private Offline() {
    }

    /** The probe array of the class with this id, made at the first call. Instrumented classes call it once each. */
    public static synchronized boolean[] getProbes(long id, String name, int count) {
        Probed probed = CLASSES.computeIfAbsent(id, key -> new Probed(name, count));
        if (!probed.name.equals(name) || probed.probes.length != count) {
            throw new IllegalStateException("two classes of one id: " + probed.name + ", " + name);
        }
        return probed.probes;
    }

    /** Writes the execution data of all classes that asked for their probes. */
    public static synchronized void write(String session, OutputStream file) throws IOException {
        DataOutputStream out = new DataOutputStream(file);
        out.writeByte(0x01);
        out.writeShort(0xc0c0);
        out.writeShort(0x1007);
        out.writeByte(0x10);
        out.writeUTF(session);
        out.writeLong(START);
        out.writeLong(System.currentTimeMillis());
        for (Map.Entry<Long, Probed> entry : CLASSES.entrySet()) {
            out.writeByte(0x11);
            out.writeLong(entry.getKey());
            out.writeUTF(entry.getValue().name);
            writeProbes(out, entry.getValue().probes);
        }
        out.flush();
    }

    /** The number of probes, seven bits a byte from the lowest on, and then a bit for each probe. */
    private static void writeProbes(DataOutputStream out, boolean[] probes) throws IOException {
        int count = probes.length;
        while (count > 0x7f) {
            out.writeByte(0x80 | (count & 0x7f));
            count >>>= 7;
        }
        out.writeByte(count);
        for (int first = 0; first < probes.length; first += 8) {
            int bits = 0;
            for (int i = first; i < Math.min(first + 8, probes.length); i++) {
                bits |= probes[i] ? 1 << (i - first) : 0;
            }
            out.writeByte(bits);
        }
    }
}
