package supers;

import java.io.DataInputStream;
import java.io.IOException;
import java.net.URL;
import java.net.URLClassLoader;
import java.nio.file.Files;
import java.nio.file.Path;
import java.util.Map;
import java.util.TreeMap;
import java.util.stream.Collectors;
import java.util.stream.Stream;

/**
 * Prints a line for each class that the class files below a folder name, and for each that stands above one: its name, its
 * flags, its superclass unless it has none, and its interfaces. The classes are those of the folder, of the classpath behind
 * it, and of the JDK that runs this; what isn't there has no line.
 */
public final class Main {
    private static final int PUBLIC_FINAL_INTERFACE_ABSTRACT = 0x611;
    private static final int OF_A_CLASS = 0x20;

    private final ClassLoader loader;
    private final Map<String, String> lines = new TreeMap<>();

    private Main(ClassLoader loader) {
        this.loader = loader;
    }

    public static void main(String[] words) throws IOException {
        URL[] places = new URL[words.length];
        for (int i = 0; i < words.length; i++) {
            places[i] = Path.of(words[i]).toUri().toURL();
        }
        Main main = new Main(new URLClassLoader(places, ClassLoader.getPlatformClassLoader()));
        try (Stream<Path> files = Files.walk(Path.of(words[0]))) {
            for (Path file : (Iterable<Path>) files.filter(f -> f.toString().endsWith(".class"))::iterator) {
                main.addNamed(file);
            }
        }
        main.lines.values().forEach(System.out::println);
    }

    /** Adds each class that a class file's constant pool names, also within descriptors (JVMS 4.4). */
    private void addNamed(Path file) throws IOException {
        try (DataInputStream in = new DataInputStream(Files.newInputStream(file))) {
            in.skipBytes(8);
            int count = in.readUnsignedShort();
            String[] texts = new String[count];
            int[] classes = new int[count];
            for (int i = 1; i < count; i++) {
                int tag = in.readUnsignedByte();
                switch (tag) {
                    case 1 -> texts[i] = in.readUTF();
                    case 7 -> classes[i] = in.readUnsignedShort();
                    case 5, 6 -> {
                        in.skipBytes(8);
                        i++;
                    }
                    case 8, 16, 19, 20 -> in.skipBytes(2);
                    case 15 -> in.skipBytes(3);
                    default -> in.skipBytes(4);
                }
            }
            for (int i = 1; i < count; i++) {
                if (classes[i] != 0) {
                    String name = texts[classes[i]];
                    addAll(name.startsWith("[") ? name : "L" + name + ";");
                }
                if (texts[i] != null && texts[i].indexOf(';') > 0) {
                    addAll(texts[i]);
                }
            }
        }
    }

    /** Adds each class that a descriptor names. */
    private void addAll(String desc) {
        for (int at = desc.indexOf('L'); at >= 0; at = desc.indexOf('L', at)) {
            int end = desc.indexOf(';', at);
            if (end < 0) {
                return;
            }
            add(desc.substring(at + 1, end));
            at = end;
        }
    }

    private void add(String name) {
        if (lines.containsKey(name) || name.isEmpty() || name.indexOf('.') >= 0 || name.indexOf('<') >= 0) {
            return;
        }
        try {
            add(Class.forName(name.replace('/', '.'), false, loader));
        } catch (ClassNotFoundException | LinkageError absent) {
            // it has no line
        }
    }

    private void add(Class<?> type) {
        String name = nameOf(type);
        if (lines.containsKey(name)) {
            return;
        }
        int flags = type.getModifiers() & PUBLIC_FINAL_INTERFACE_ABSTRACT | (type.isInterface() ? 0 : OF_A_CLASS);
        Class<?> above = type.isInterface() ? Object.class : type.getSuperclass();
        String interfaces = Stream.of(type.getInterfaces()).map(i -> " " + nameOf(i)).collect(Collectors.joining());
        lines.put(name, name + " " + flags + (above == null ? "" : " " + nameOf(above)) + interfaces);
        if (above != null) {
            add(above);
        }
        for (Class<?> each : type.getInterfaces()) {
            add(each);
        }
    }

    private static String nameOf(Class<?> type) {
        return type.getName().replace('.', '/');
    }
}
