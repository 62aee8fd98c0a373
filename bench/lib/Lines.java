import java.io.FileInputStream;
import java.io.PrintStream;
import java.nio.charset.StandardCharsets;
import java.nio.file.Files;
import java.nio.file.Path;
import java.util.ArrayList;
import java.util.HashMap;
import java.util.List;
import java.util.Map;
import java.util.function.Function;
import org.jacoco.core.analysis.IClassCoverage;
import org.jacoco.core.analysis.ICounter;
import org.jacoco.core.internal.instr.InstrSupport;
import org.jacoco.core.tools.ExecFileLoader;
import org.objectweb.asm.ClassReader;
import org.objectweb.asm.ClassVisitor;
import org.objectweb.asm.Label;
import org.objectweb.asm.MethodVisitor;
import org.objectweb.asm.Opcodes;

/**
 * The status of each line, and totals of classes, by JaCoCo's own analyzer with all filters but the synthetic one switched off.
 *
 * usage: Lines zero LIST          prints the paths of the class files that have a line entry of number 0
 *        Lines list LIST EXEC     prints what `jcov lines --exec EXEC` is to print of them, in the order of LIST
 *        Lines totals LIST EXEC   prints a line `COUNTER COVERED ALL` for each counter, summed over the classes
 *
 * LIST is a file with a path of a class file in each line. Report reads and analyses them.
 */
public final class Lines {
    private static final String[] STATUS = {"empty", "not", "fully", "partly"};

    public static void main(String[] args) throws Exception {
        List<String> paths = Files.readAllLines(Path.of(args[1]));
        PrintStream out = new PrintStream(System.out, false, StandardCharsets.UTF_8);
        if (args[0].equals("zero")) {
            for (String path : paths) {
                if (hasLineZero(reader(path))) {
                    out.println(path);
                }
            }
        } else {
            List<IClassCoverage> classes = analysed(paths, args[2]);
            if (args[0].equals("list")) {
                list(classes, out);
            } else {
                totals(classes, out);
            }
        }
        out.flush();
    }

    private static ClassReader reader(String path) throws Exception {
        return InstrSupport.classReaderFor(Files.readAllBytes(Path.of(path)));
    }

    private static boolean hasLineZero(ClassReader reader) {
        boolean[] found = {false};
        ClassVisitor visitor = new ClassVisitor(Opcodes.ASM9) {
            @Override
            public MethodVisitor visitMethod(int access, String name, String desc, String signature, String[] exceptions) {
                return new MethodVisitor(Opcodes.ASM9) {
                    @Override
                    public void visitLineNumber(int line, Label start) {
                        found[0] |= line == 0;
                    }
                };
            }
        };
        reader.accept(new Report.Unsealed(visitor), ClassReader.SKIP_FRAMES);
        return found[0];
    }

    private static List<IClassCoverage> analysed(List<String> paths, String exec) throws Exception {
        ExecFileLoader loader = new ExecFileLoader();
        try (FileInputStream in = new FileInputStream(exec)) {
            loader.load(in);
        }
        Map<String, IClassCoverage> byName = new HashMap<>();
        for (IClassCoverage coverage : Report.analysed(paths, loader.getExecutionDataStore(), false).getClasses()) {
            byName.put(coverage.getName(), coverage);
        }
        List<IClassCoverage> classes = new ArrayList<>();
        for (String path : paths) {
            IClassCoverage coverage = byName.remove(reader(path).getClassName());
            if (coverage != null) {
                classes.add(coverage);
            }
        }
        return classes;
    }

    private static void list(List<IClassCoverage> classes, PrintStream out) {
        for (IClassCoverage coverage : classes) {
            out.println("class " + coverage.getName());
            if (coverage.getFirstLine() >= 0) {
                for (int line = coverage.getFirstLine(); line <= coverage.getLastLine(); line++) {
                    out.println(line + " " + STATUS[coverage.getLine(line).getStatus()]);
                }
            }
        }
    }

    private static void totals(List<IClassCoverage> classes, PrintStream out) {
        total("instruction", classes, IClassCoverage::getInstructionCounter, out);
        total("branch", classes, IClassCoverage::getBranchCounter, out);
        total("line", classes, IClassCoverage::getLineCounter, out);
        total("complexity", classes, IClassCoverage::getComplexityCounter, out);
        total("method", classes, IClassCoverage::getMethodCounter, out);
        total("class", classes, IClassCoverage::getClassCounter, out);
    }

    private static void total(String name, List<IClassCoverage> classes, Function<IClassCoverage, ICounter> counter, PrintStream out) {
        long covered = 0;
        long all = 0;
        for (IClassCoverage coverage : classes) {
            covered += counter.apply(coverage).getCoveredCount();
            all += counter.apply(coverage).getTotalCount();
        }
        out.println(name + " " + covered + " " + all);
    }
}
