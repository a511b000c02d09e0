package edits;

import java.io.DataInputStream;
import java.io.IOException;
import java.nio.file.Files;
import java.nio.file.Path;
import java.util.HashMap;
import java.util.List;
import java.util.Map;
import java.util.stream.Collectors;
import java.util.stream.Stream;

/** Whether this JVM takes the format of edited class files. Words: a folder of classes, a folder of edited ones, and `flow` where each is to be verified, too. */
public final class Main {
    /** Defines one class file, and what it stands on from the folder of classes; the rest is the platform's. */
    private static final class Loader extends ClassLoader {
        private final Map<String, Path> files;

        Loader(Map<String, Path> files) {
            super(ClassLoader.getPlatformClassLoader());
            this.files = files;
        }

        Class<?> define(byte[] bytes) {
            return defineClass(null, bytes, 0, bytes.length);
        }

        @Override
        protected Class<?> findClass(String name) throws ClassNotFoundException {
            Path file = files.get(name);
            if (file == null) {
                throw new ClassNotFoundException(name);
            }
            try {
                return define(Files.readAllBytes(file));
            } catch (IOException e) {
                throw new ClassNotFoundException(name, e);
            }
        }
    }

    private static int taken;
    private static int refused;
    private static int lacking;
    private static int verified;
    private static int unverified;

    private static List<Path> filesIn(Path folder) throws IOException {
        try (Stream<Path> files = Files.walk(folder)) {
            return files.filter(Files::isRegularFile).sorted().collect(Collectors.toList());
        }
    }

    private static Map<String, Path> classesIn(Path folder) throws IOException {
        Map<String, Path> classes = new HashMap<>();
        for (Path file : filesIn(folder)) {
            String name = folder.relativize(file).toString();
            if (name.endsWith(".class")) {
                classes.put(name.substring(0, name.length() - 6).replace('/', '.'), file);
            }
        }
        return classes;
    }

    // Linking verifies, and the methods of a class are told only once it is linked.
    private static void verify(Class<?> made, String what) {
        try {
            made.getDeclaredMethods();
            verified++;
        } catch (VerifyError e) {
            unverified++;
            System.out.println(what + ": " + e.getMessage().lines().findFirst().orElse(""));
        } catch (LinkageError e) {
            lacking++;
        }
    }

    private static void take(Map<String, Path> classes, byte[] bytes, String what, boolean flow) {
        Class<?> made;
        try {
            made = new Loader(classes).define(bytes);
        } catch (NoClassDefFoundError e) {
            lacking++;
            return;
        } catch (LinkageError e) {
            refused++;
            System.out.println(what + ": " + e);
            return;
        }
        taken++;
        if (flow) {
            verify(made, what);
        }
    }

    public static void main(String[] words) throws IOException {
        Map<String, Path> classes = classesIn(Path.of(words[0]));
        boolean flow = words.length > 2 && words[2].equals("flow");
        for (Path file : filesIn(Path.of(words[1]))) {
            try (DataInputStream edited = new DataInputStream(Files.newInputStream(file))) {
                for (int number = 0; edited.available() > 0; number++) {
                    byte[] bytes = new byte[edited.readInt()];
                    edited.readFully(bytes);
                    take(classes, bytes, file.getFileName() + " " + number, flow);
                }
            }
        }
        System.out.println(taken + " taken, " + refused + " refused, " + lacking + " that stand on a class that isn't there");
        if (flow) {
            System.out.println(verified + " verified, " + unverified + " not");
        }
        System.exit(refused == 0 ? 0 : 1);
    }
}
