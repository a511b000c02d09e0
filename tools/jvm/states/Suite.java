package states;

import java.util.ArrayList;
import java.util.Arrays;
import java.util.HashSet;
import java.util.List;
import java.util.Set;
import org.objectweb.asm.ClassReader;
import org.objectweb.asm.Opcodes;
import org.objectweb.asm.tree.AnnotationNode;
import org.objectweb.asm.tree.ClassNode;
import org.objectweb.asm.tree.MethodNode;

/** The tests of the tests folder: by the names of their classes, in each the methods of superclasses first, in the order of the files. */
final class Suite {
    static final class Test {
        final String owner;
        final String method;
        final boolean isOfFive;

        Test(String owner, String method, boolean isOfFive) {
            this.owner = owner;
            this.method = method;
            this.isOfFive = isOfFive;
        }

        String id() {
            return owner + "." + method;
        }
    }

    private static final String FOUR = "Lorg/junit/Test;";
    private static final String FIVE = "Lorg/junit/jupiter/api/Test;";
    private static final List<String> OFF = Arrays.asList("Lorg/junit/Ignore;", "Lorg/junit/jupiter/api/Disabled;");

    private Suite() {
    }

    static List<Test> tests(Program program) {
        List<Test> tests = new ArrayList<>();
        for (String name : program.tests.keySet()) {
            List<ClassNode> classes = new ArrayList<>();
            for (String above = name; above != null && program.file(above) != null; above = program.superOf(above)) {
                ClassNode node = new ClassNode();
                new ClassReader(program.file(above)).accept(node, ClassReader.SKIP_CODE);
                classes.add(node);
            }
            ClassNode own = classes.get(0);
            if ((own.access & (Opcodes.ACC_ABSTRACT | Opcodes.ACC_INTERFACE)) == 0 && !has(own.visibleAnnotations, OFF)) {
                addTests(name, classes, tests);
            }
        }
        return tests;
    }

    private static void addTests(String owner, List<ClassNode> classes, List<Test> tests) {
        for (int at = classes.size() - 1; at >= 0; at--) {
            Set<String> lower = new HashSet<>();
            for (ClassNode below : classes.subList(0, at)) {
                below.methods.forEach(method -> lower.add(method.name + method.desc));
            }
            for (MethodNode method : classes.get(at).methods) {
                boolean isOfFive = has(method.visibleAnnotations, Arrays.asList(FIVE));
                boolean isTest = isOfFive || has(method.visibleAnnotations, Arrays.asList(FOUR));
                if (isTest && !has(method.visibleAnnotations, OFF) && !lower.contains(method.name + method.desc)) {
                    tests.add(new Test(owner, method.name, isOfFive));
                }
            }
        }
    }

    private static boolean has(List<AnnotationNode> annotations, List<String> types) {
        return annotations != null && annotations.stream().anyMatch(annotation -> types.contains(annotation.desc));
    }
}
