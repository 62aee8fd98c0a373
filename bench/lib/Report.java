import java.io.BufferedOutputStream;
import java.io.FileInputStream;
import java.io.FileOutputStream;
import java.io.OutputStream;
import java.lang.reflect.Field;
import java.nio.file.Files;
import java.nio.file.Path;
import java.util.HashSet;
import java.util.List;
import java.util.Random;
import java.util.Set;
import org.jacoco.core.analysis.CoverageBuilder;
import org.jacoco.core.data.ExecutionData;
import org.jacoco.core.data.ExecutionDataStore;
import org.jacoco.core.data.ExecutionDataWriter;
import org.jacoco.core.internal.analysis.ClassAnalyzer;
import org.jacoco.core.internal.analysis.ClassCoverageImpl;
import org.jacoco.core.internal.analysis.StringPool;
import org.jacoco.core.internal.analysis.filter.SyntheticFilter;
import org.jacoco.core.internal.data.CRC64;
import org.jacoco.core.internal.flow.ClassProbesAdapter;
import org.jacoco.core.internal.flow.ClassProbesVisitor;
import org.jacoco.core.internal.flow.MethodProbesVisitor;
import org.jacoco.core.internal.instr.InstrSupport;
import org.jacoco.core.tools.ExecFileLoader;
import org.jacoco.report.IReportVisitor;
import org.jacoco.report.csv.CSVFormatter;
import org.objectweb.asm.ClassReader;
import org.objectweb.asm.ClassVisitor;
import org.objectweb.asm.Opcodes;

/**
 * Execution data of random hits, and the CSV text of JaCoCo's own library over it.
 *
 * usage: Report hits SEED LIST EXEC     writes a record of random hits for two of three classes
 *        Report csv NAME LIST EXEC CSV  writes the report, with all filters but the synthetic one switched off
 *        Report plain NAME LIST EXEC CSV  writes the report as JaCoCo does, by its Analyzer and with its filters
 *
 * LIST is a file with a path of a class file in each line. Of classes with one id the first counts.
 */
public final class Report {
    public static void main(String[] args) throws Exception {
        List<String> paths = Files.readAllLines(Path.of(args[2]));
        if (args[0].equals("hits")) {
            writeHits(new Random(Long.parseLong(args[1])), paths, args[3]);
        } else {
            ExecFileLoader loader = new ExecFileLoader();
            try (FileInputStream in = new FileInputStream(args[3])) {
                loader.load(in);
            }
            boolean plain = args[0].equals("plain");
            CoverageBuilder coverage = analysed(paths, loader.getExecutionDataStore(), plain);
            try (OutputStream out = new BufferedOutputStream(new FileOutputStream(args[4]), 1 << 20)) {
                IReportVisitor visitor = new CSVFormatter().createVisitor(out);
                visitor.visitInfo(List.of(), List.of());
                visitor.visitBundle(coverage.getBundle(args[1]), null);
                visitor.visitEnd();
            }
        }
    }

    private static void writeHits(Random random, List<String> paths, String exec) throws Exception {
        Set<Long> ids = new HashSet<>();
        try (OutputStream out = new BufferedOutputStream(new FileOutputStream(exec), 1 << 20)) {
            ExecutionDataWriter writer = new ExecutionDataWriter(out);
            for (String path : paths) {
                byte[] bytes = Files.readAllBytes(Path.of(path));
                ClassReader reader = InstrSupport.classReaderFor(bytes);
                Probes probes = new Probes();
                reader.accept(new Unsealed(new ClassProbesAdapter(probes, false)), 0);
                long id = CRC64.classId(bytes);
                boolean listed = random.nextInt(3) > 0;
                int share = random.nextInt(101);
                if (probes.count > 0 && ids.add(id) && listed) {
                    boolean[] hits = new boolean[probes.count];
                    for (int i = 0; i < hits.length; i++) {
                        hits[i] = random.nextInt(100) < share;
                    }
                    writer.visitClassExecution(new ExecutionData(id, reader.getClassName(), hits));
                }
            }
        }
    }

    static CoverageBuilder analysed(List<String> paths, ExecutionDataStore store, boolean plain) throws Exception {
        CoverageBuilder builder = new CoverageBuilder();
        Field filters = ClassAnalyzer.class.getDeclaredField("filter");
        filters.setAccessible(true);
        Set<Long> ids = new HashSet<>();
        for (String path : paths) {
            byte[] bytes = Files.readAllBytes(Path.of(path));
            ClassReader reader = InstrSupport.classReaderFor(bytes);
            long id = CRC64.classId(bytes);
            if ((reader.getAccess() & (Opcodes.ACC_MODULE | Opcodes.ACC_SYNTHETIC)) != 0 || !ids.add(id)) {
                continue;
            }
            ExecutionData data = store.get(id);
            boolean noMatch = data == null && store.contains(reader.getClassName());
            ClassCoverageImpl coverage = new ClassCoverageImpl(reader.getClassName(), id, noMatch);
            ClassAnalyzer analyzer = new ClassAnalyzer(coverage, data == null ? null : data.getProbes(), new StringPool());
            if (!plain) {
                filters.set(analyzer, new SyntheticFilter());
            }
            reader.accept(new Unsealed(new ClassProbesAdapter(analyzer, false)), 0);
            if (coverage.getInstructionCounter().getTotalCount() > 0) {
                builder.visitCoverage(coverage);
            }
        }
        return builder;
    }

    /** Leaves out the list of a sealed class's subclasses, which this version of the library refuses to see. */
    static final class Unsealed extends ClassVisitor {
        Unsealed(ClassVisitor next) {
            super(Opcodes.ASM9, next);
        }

        @Override
        public void visitPermittedSubclass(String subclass) {
        }
    }

    /** The number of a class's probes. */
    private static final class Probes extends ClassProbesVisitor {
        int count;

        @Override
        public MethodProbesVisitor visitMethod(int access, String name, String desc, String signature, String[] exceptions) {
            return null;
        }

        @Override
        public void visitTotalProbeCount(int total) {
            count = total;
        }
    }
}
