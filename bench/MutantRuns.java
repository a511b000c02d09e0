import java.io.IOException;
import java.lang.annotation.Annotation;
import java.lang.reflect.InvocationTargetException;
import java.lang.reflect.Method;
import java.nio.file.Files;
import java.nio.file.Path;
import java.nio.file.Paths;
import java.util.ArrayList;
import java.util.HashMap;
import java.util.List;
import java.util.Map;
import java.util.stream.Stream;

/**
 * `CLASSES TESTS`: runs the JUnit 4 tests of a folder by reflection, first on the classes as they are, and then once for each conditional jump of a class and for each opcode that is put in
 * its place: the opposite one, and the one that takes equal numbers to the other side. Each mutant has class loaders of its own. Prints how many mutants the tests notice, and how many there are.
 * The bytes of a jump are found by its opcode alone, so it serves only for classes whose other bytes look like none.
 */
public class MutantRuns {
    public static void main(String[] folders) throws Exception {
        Map<String, byte[]> classes = read(Paths.get(folders[0]));
        Map<String, byte[]> tests = read(Paths.get(folders[1]));
        if (!pass(classes, tests)) {
            throw new IllegalStateException("the tests don't pass");
        }
        int mutants = 0;
        int noticed = 0;
        for (Map.Entry<String, byte[]> each : classes.entrySet()) {
            byte[] bytes = each.getValue();
            for (int at : jumps(bytes)) {
                byte old = bytes[at];
                for (int op : replacements(old & 0xff)) {
                    bytes[at] = (byte) op;
                    mutants++;
                    if (!pass(classes, tests)) {
                        noticed++;
                    }
                }
                bytes[at] = old;
            }
        }
        System.out.println("mutants " + mutants + " noticed " + noticed);
    }

    /** The places of `iload_N; if.. 00 05` with iflt to ifle, and of `iload_N; iload_N; if.. 00 05` with if_icmplt to if_icmple. */
    private static List<Integer> jumps(byte[] bytes) {
        List<Integer> places = new ArrayList<>();
        for (int at = 1; at + 2 < bytes.length; at++) {
            int before = bytes[at - 1] & 0xff;
            int op = bytes[at] & 0xff;
            if (before >= 0x1a && before <= 0x1d && (op >= 0x9b && op <= 0x9e || op >= 0xa1 && op <= 0xa4) && bytes[at + 1] == 0 && bytes[at + 2] == 5) {
                places.add(at);
            }
        }
        return places;
    }

    private static int[] replacements(int op) {
        int opposite = op % 2 == 1 ? op + 1 : op - 1;
        int moved = op <= 0x9e ? 0x9b + 0x9e - op : 0xa1 + 0xa4 - op;
        return new int[] {moved, opposite};
    }

    private static boolean pass(Map<String, byte[]> classes, Map<String, byte[]> tests) throws Exception {
        ClassLoader loader = new ClassLoader(MutantRuns.class.getClassLoader()) {
            @Override
            protected Class<?> findClass(String name) throws ClassNotFoundException {
                byte[] bytes = classes.containsKey(name) ? classes.get(name) : tests.get(name);
                if (bytes == null) {
                    throw new ClassNotFoundException(name);
                }
                return defineClass(name, bytes, 0, bytes.length);
            }
        };
        boolean passed = true;
        for (String name : tests.keySet()) {
            Class<?> type = loader.loadClass(name);
            for (Method method : type.getMethods()) {
                if (isTest(method)) {
                    passed &= passes(type, method);
                }
            }
        }
        return passed;
    }

    private static boolean isTest(Method method) {
        for (Annotation annotation : method.getAnnotations()) {
            if (annotation.annotationType().getName().equals("org.junit.Test")) {
                return true;
            }
        }
        return false;
    }

    private static boolean passes(Class<?> type, Method method) throws Exception {
        try {
            method.invoke(type.getDeclaredConstructor().newInstance());
            return true;
        } catch (InvocationTargetException failure) {
            return false;
        }
    }

    private static Map<String, byte[]> read(Path folder) throws IOException {
        Map<String, byte[]> files = new HashMap<>();
        try (Stream<Path> paths = Files.walk(folder)) {
            for (Path path : (Iterable<Path>) paths.filter(p -> p.toString().endsWith(".class"))::iterator) {
                String name = folder.relativize(path).toString().replace('/', '.');
                files.put(name.substring(0, name.length() - ".class".length()), Files.readAllBytes(path));
            }
        }
        return files;
    }
}
