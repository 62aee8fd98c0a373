import java.io.BufferedOutputStream;
import java.io.ByteArrayOutputStream;
import java.io.DataOutputStream;
import java.io.IOException;
import java.io.OutputStream;
import java.nio.file.Files;
import java.nio.file.Path;
import java.util.Arrays;
import java.util.LinkedHashSet;
import java.util.Set;
import org.jacoco.core.internal.data.CRC64;
import org.jacoco.core.internal.flow.ClassProbesAdapter;
import org.jacoco.core.internal.flow.ClassProbesVisitor;
import org.jacoco.core.internal.flow.IFrame;
import org.jacoco.core.internal.flow.LabelInfo;
import org.jacoco.core.internal.flow.MethodProbesVisitor;
import org.jacoco.core.internal.instr.InstrSupport;
import org.objectweb.asm.ClassReader;
import org.objectweb.asm.ClassVisitor;
import org.objectweb.asm.Handle;
import org.objectweb.asm.Label;
import org.objectweb.asm.Opcodes;

/**
 * The probes of class files as JaCoCo's own library places them, in the text form of `jcov classinfo`.
 *
 * usage: ProbeCounts classes|probes|left-alone LIST, where LIST is a file with a path of a class file in each line.
 * `classes` prints a line for each class and for each method with code, `probes` also one for each probe: its id and
 * the instruction and the branch that it stands on, or `lead` for the sequence into that instruction. Both look into
 * each class. `left-alone` prints only what `jcov classinfo` looks into: no methods of module files and of synthetic
 * classes.
 */
public final class ProbeCounts {
    public static void main(String[] args) throws Exception {
        boolean probes = args[0].equals("probes");
        boolean leftAlone = args[0].equals("left-alone");
        try (OutputStream out = new BufferedOutputStream(System.out, 1 << 20)) {
            for (String path : Files.readAllLines(Path.of(args[1]))) {
                byte[] bytes = Files.readAllBytes(Path.of(path));
                try {
                    Counted counted = new Counted(probes);
                    ClassReader reader = InstrSupport.classReaderFor(bytes);
                    int skipped = leftAlone ? Opcodes.ACC_MODULE | Opcodes.ACC_SYNTHETIC : 0;
                    if ((reader.getAccess() & skipped) == 0) {
                        reader.accept(new Unsealed(new ClassProbesAdapter(counted, false)), 0);
                    }
                    out.write("class ".getBytes("UTF-8"));
                    out.write(modified(reader.getClassName()));
                    int version = InstrSupport.getMajorVersion(bytes);
                    String form = " id %016x version %d probes %d\n";
                    out.write(String.format(form, CRC64.classId(bytes), version, counted.total).getBytes("UTF-8"));
                    counted.methods.writeTo(out);
                } catch (RuntimeException error) {
                    out.write((path + ": " + error + "\n").getBytes("UTF-8"));
                }
            }
        }
    }

    private static byte[] modified(String text) throws IOException {
        ByteArrayOutputStream bytes = new ByteArrayOutputStream();
        new DataOutputStream(bytes).writeUTF(text);
        return Arrays.copyOfRange(bytes.toByteArray(), 2, bytes.size());
    }

    /** Leaves out the list of a sealed class's subclasses, which this version of the library refuses to see. */
    private static final class Unsealed extends ClassVisitor {
        Unsealed(ClassVisitor next) {
            super(Opcodes.ASM9, next);
        }

        @Override
        public void visitPermittedSubclass(String subclass) {
        }
    }

    /** The lines of a class's methods, and its number of probes. */
    private static final class Counted extends ClassProbesVisitor {
        final ByteArrayOutputStream methods = new ByteArrayOutputStream();
        final boolean each;
        int total;

        Counted(boolean each) {
            this.each = each;
        }

        @Override
        public MethodProbesVisitor visitMethod(int access, String name, String desc, String signature, String[] exceptions) {
            return new CountedMethod(this, name + desc);
        }

        @Override
        public void visitTotalProbeCount(int count) {
            total = count;
        }
    }

    /** Counts instructions and probes of a method. */
    private static final class CountedMethod extends MethodProbesVisitor {
        private final Counted owner;
        private final String name;
        private final StringBuilder places = new StringBuilder();
        private boolean coded;
        private int instructions;
        private int probes;

        CountedMethod(Counted owner, String name) {
            this.owner = owner;
            this.name = name;
        }

        private void place(int id, String where) {
            probes++;
            if (owner.each) {
                places.append("probe ").append(id).append(where).append(instructions).append('\n');
            }
        }

        @Override
        public void visitCode() {
            coded = true;
        }

        @Override
        public void visitEnd() {
            if (!coded) {
                return;
            }
            try {
                owner.methods.write("method ".getBytes("UTF-8"));
                owner.methods.write(modified(name));
                String counts = " instructions " + instructions + " probes " + probes + "\n";
                owner.methods.write((counts + places).getBytes("UTF-8"));
            } catch (IOException error) {
                throw new IllegalStateException(error);
            }
        }

        @Override
        public void visitProbe(int id) {
            place(id, " lead ");
        }

        @Override
        public void visitInsnWithProbe(int opcode, int id) {
            place(id, " branch 0 of ");
            instructions++;
        }

        @Override
        public void visitJumpInsnWithProbe(int opcode, Label label, int id, IFrame frame) {
            place(id, " branch 1 of ");
            instructions++;
        }

        /** The probes of a switch: the default's target is branch 0, then each new target has the next number. */
        private void arms(Label defaults, Label[] labels) {
            Set<Label> targets = new LinkedHashSet<>();
            targets.add(defaults);
            targets.addAll(Arrays.asList(labels));
            int branch = 0;
            for (Label target : targets) {
                if (LabelInfo.getProbeId(target) != LabelInfo.NO_PROBE) {
                    place(LabelInfo.getProbeId(target), " branch " + branch + " of ");
                }
                branch++;
            }
            instructions++;
        }

        @Override
        public void visitTableSwitchInsnWithProbes(int min, int max, Label defaults, Label[] labels, IFrame frame) {
            arms(defaults, labels);
        }

        @Override
        public void visitLookupSwitchInsnWithProbes(Label defaults, int[] keys, Label[] labels, IFrame frame) {
            arms(defaults, labels);
        }

        @Override
        public void visitInsn(int opcode) {
            instructions++;
        }

        @Override
        public void visitIntInsn(int opcode, int operand) {
            instructions++;
        }

        @Override
        public void visitVarInsn(int opcode, int slot) {
            instructions++;
        }

        @Override
        public void visitTypeInsn(int opcode, String type) {
            instructions++;
        }

        @Override
        public void visitFieldInsn(int opcode, String type, String field, String desc) {
            instructions++;
        }

        @Override
        public void visitMethodInsn(int opcode, String type, String method, String desc, boolean ofInterface) {
            instructions++;
        }

        @Override
        public void visitInvokeDynamicInsn(String method, String desc, Handle bootstrap, Object... arguments) {
            instructions++;
        }

        @Override
        public void visitJumpInsn(int opcode, Label label) {
            instructions++;
        }

        @Override
        public void visitLdcInsn(Object value) {
            instructions++;
        }

        @Override
        public void visitIincInsn(int slot, int by) {
            instructions++;
        }

        @Override
        public void visitTableSwitchInsn(int min, int max, Label defaults, Label... labels) {
            instructions++;
        }

        @Override
        public void visitLookupSwitchInsn(Label defaults, int[] keys, Label[] labels) {
            instructions++;
        }

        @Override
        public void visitMultiANewArrayInsn(String desc, int dimensions) {
            instructions++;
        }
    }
}
