import java.io.IOException;
import java.nio.file.Files;
import java.nio.file.Path;
import java.nio.file.Paths;
import java.util.List;
import java.util.stream.Collectors;
import java.util.stream.Stream;
import org.objectweb.asm.ClassReader;
import org.objectweb.asm.ClassWriter;
import org.objectweb.asm.tree.ClassNode;

/**
 * Reads each class file below a folder by ASM into its tree of nodes, or where the second word is `write` into its writer, and
 * writes what was read.
 */
public class AsmRead {
    public static void main(String[] words) throws IOException {
        List<Path> paths;
        try (Stream<Path> walk = Files.walk(Paths.get(words[0]))) {
            paths = walk.filter(path -> path.toString().endsWith(".class")).collect(Collectors.toList());
        }
        boolean writes = words[1].equals("write");
        long read = 0;
        long methods = 0;
        long bytes = 0;
        for (Path path : paths) {
            ClassReader reader = new ClassReader(Files.readAllBytes(path));
            if (writes) {
                ClassWriter writer = new ClassWriter(0);
                reader.accept(writer, 0);
                bytes += writer.toByteArray().length;
            } else {
                ClassNode node = new ClassNode();
                reader.accept(node, 0);
                methods += node.methods.size();
            }
            read += 1;
        }
        System.out.println(read + " read, " + (writes ? bytes + " bytes written" : methods + " methods"));
    }
}
