package takes;

import java.io.IOException;
import java.nio.file.Files;
import java.nio.file.Path;
import java.nio.file.Paths;
import java.util.ArrayList;
import java.util.List;
import java.util.Map;
import java.util.TreeMap;
import java.util.stream.Collectors;
import java.util.stream.Stream;

/** Links each class file of some folders, so that the JVM verifies it. Java's own classes are the JVM's. */
public final class Main {
    private static final class Loader extends ClassLoader {
        private final Map<String, byte[]> files = new TreeMap<>();

        void add(Path folder) throws IOException {
            List<Path> paths;
            try (Stream<Path> all = Files.walk(folder)) {
                paths = all.filter(path -> path.toString().endsWith(".class")).collect(Collectors.toList());
            }
            for (Path path : paths) {
                String name = folder.relativize(path).toString().replaceAll("\\.class$", "").replace('/', '.');
                if (!name.startsWith("java.") && !name.equals("more.Known") && !name.matches("[a-z]+")) {
                    files.put(name, Files.readAllBytes(path));
                }
            }
        }

        @Override
        protected Class<?> loadClass(String name, boolean resolve) throws ClassNotFoundException {
            byte[] file = files.get(name);
            if (file == null) {
                return super.loadClass(name, resolve);
            }
            Class<?> loaded = findLoadedClass(name);
            return loaded == null ? defineClass(name, file, 0, file.length) : loaded;
        }
    }

    private Main() {
    }

    public static void main(String[] folders) throws Exception {
        Loader loader = new Loader();
        for (String folder : folders) {
            loader.add(Paths.get(folder));
        }
        List<String> refused = new ArrayList<>();
        int absent = 0;
        for (String name : loader.files.keySet()) {
            try {
                // This links the class.
                loader.loadClass(name).getDeclaredMethods();
            } catch (NoClassDefFoundError missing) {
                // A class that a test never comes to may name what isn't there.
                absent++;
            } catch (LinkageError fault) {
                refused.add(name + ": " + fault);
            }
        }
        refused.forEach(System.out::println);
        int taken = loader.files.size() - refused.size() - absent;
        System.out.println(taken + " taken, " + absent + " name what isn't there, " + refused.size() + " refused");
        System.exit(refused.isEmpty() ? 0 : 1);
    }
}
