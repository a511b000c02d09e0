package verifies;

import java.io.IOException;
import java.nio.file.Files;
import java.nio.file.Path;

/**
 * Whether this JVM verifies a class. Words: a folder with the classes that all stand on, and folders that each hold one class
 * file `A.class`. Prints a line for each of these: `accepted`, or the name and the first lines of what is thrown.
 */
public final class Main {
    /** Defines the class `A` of one folder, and what it stands on from the folder of all; the rest is the platform's. */
    private static final class Loader extends ClassLoader {
        private final Path all;
        private final Path own;

        Loader(Path all, Path own) {
            super(ClassLoader.getPlatformClassLoader());
            this.all = all;
            this.own = own;
        }

        @Override
        protected Class<?> findClass(String name) throws ClassNotFoundException {
            Path folder = name.equals("A") ? own : all;
            try {
                byte[] bytes = Files.readAllBytes(folder.resolve(name + ".class"));
                return defineClass(name, bytes, 0, bytes.length);
            } catch (IOException e) {
                throw new ClassNotFoundException(name, e);
            }
        }
    }

    // Linking verifies, and the constructors of a class are told only once it is linked. What their descriptors name is
    // looked for after that, and what isn't there then says nothing of the verification.
    private static String said(Path all, Path own) {
        Class<?> made;
        try {
            made = Class.forName("A", false, new Loader(all, own));
        } catch (ClassNotFoundException | LinkageError e) {
            return firstLines(e);
        }
        try {
            made.getDeclaredConstructors();
            return "accepted";
        } catch (LinkageError e) {
            return firstLines(e);
        }
    }

    private static String firstLines(Throwable thrown) {
        return thrown.toString().lines().limit(2).map(String::trim).reduce((a, b) -> a + "; " + b).orElse("");
    }

    public static void main(String[] words) {
        Path all = Path.of(words[0]);
        for (int i = 1; i < words.length; i++) {
            System.out.println(said(all, Path.of(words[i])));
        }
    }
}
