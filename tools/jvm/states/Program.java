package states;

import java.io.IOException;
import java.nio.file.Files;
import java.nio.file.Path;
import java.nio.file.Paths;
import java.util.ArrayList;
import java.util.Arrays;
import java.util.List;
import java.util.Map;
import java.util.TreeMap;
import java.util.stream.Collectors;
import java.util.stream.Stream;
import org.objectweb.asm.ClassReader;

/** The class files of the two folders, by name in order. */
final class Program {
    private static final List<String> KINDS = Arrays.asList("int", "long", "short", "byte", "char", "boolean", "void");

    final Map<String, byte[]> classes;
    final Map<String, byte[]> tests;

    Program(String classes, String tests) throws IOException {
        this.classes = files(classes);
        this.tests = files(tests);
    }

    private static Map<String, byte[]> files(String folder) throws IOException {
        Map<String, byte[]> found = new TreeMap<>();
        List<Path> paths;
        try (Stream<Path> all = Files.walk(Paths.get(folder))) {
            paths = all.filter(path -> path.toString().endsWith(".class")).collect(Collectors.toList());
        }
        for (Path path : paths) {
            byte[] file = Files.readAllBytes(path);
            String name = new ClassReader(file).getClassName();
            if (!isOfJvm(name)) {
                found.put(name, file);
            }
        }
        return found;
    }

    /** Whether a JVM has its own class in the place of one that tools/prepare added: Java's, and what is known of classes by name. */
    private static boolean isOfJvm(String name) {
        return name.startsWith("java/") || name.equals("more/Known") || name.indexOf('/') < 0 && KINDS.contains(name);
    }

    byte[] file(String name) {
        byte[] file = classes.get(name);
        return file == null ? tests.get(name) : file;
    }

    List<String> names() {
        List<String> names = new ArrayList<>(classes.keySet());
        names.addAll(tests.keySet());
        return names;
    }

    /** The superclass of a class of the program or of Java; for an interface that of Object alone. */
    String superOf(String name) {
        byte[] file = file(name);
        if (file != null) {
            return new ClassReader(file).getSuperName();
        }
        try {
            Class<?> above = Class.forName(name.replace('/', '.'), false, Program.class.getClassLoader()).getSuperclass();
            return above == null ? null : above.getName().replace('.', '/');
        } catch (ClassNotFoundException none) {
            return null;
        }
    }
}
