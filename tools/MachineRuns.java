import static jdk.internal.org.objectweb.asm.Opcodes.ASM7;
import static jdk.internal.org.objectweb.asm.Opcodes.INVOKESTATIC;

import java.io.IOException;
import java.lang.reflect.InvocationTargetException;
import java.nio.file.Files;
import java.nio.file.Path;
import java.util.ArrayList;
import java.util.List;
import jdk.internal.org.objectweb.asm.ClassReader;
import jdk.internal.org.objectweb.asm.ClassVisitor;
import jdk.internal.org.objectweb.asm.ClassWriter;
import jdk.internal.org.objectweb.asm.Label;
import jdk.internal.org.objectweb.asm.MethodVisitor;

/**
 * Runs tests, each by itself in a class loader of its own, and prints how each ends, with the instructions that it
 * executes in the classes of a folder: class, method, descriptor and number. The words are the folder, and of each test
 * its class, its method and the class of what is to leave it, or `-`.
 */
public class MachineRuns {
    /** The instructions of the classes that the test has loaded so far, and whether each was executed. */
    static List<String> instructions;
    static boolean[] executed;

    public static void tell(int instruction) {
        executed[instruction] = true;
    }

    /**
     * Writes a code in which each instruction tells of itself when it is reached. A frame that names a `new` by its
     * place, as behind `new A(b ? 1 : 2)`, isn't kept: the Java runtime refuses such a class.
     */
    static class Telling extends MethodVisitor {
        final String method;
        int count;
        int line;

        Telling(MethodVisitor to, String method) {
            super(ASM7, to);
            this.method = method;
        }

        void tell() {
            super.visitLdcInsn(instructions.size());
            super.visitMethodInsn(INVOKESTATIC, "MachineRuns", "tell", "(I)V", false);
            instructions.add(method + " " + count++ + " " + line);
        }

        @Override public void visitInsn(int op) { tell(); super.visitInsn(op); }
        @Override public void visitIntInsn(int op, int value) { tell(); super.visitIntInsn(op, value); }
        @Override public void visitVarInsn(int op, int local) { tell(); super.visitVarInsn(op, local); }
        @Override public void visitJumpInsn(int op, Label to) { tell(); super.visitJumpInsn(op, to); }
        @Override public void visitLdcInsn(Object value) { tell(); super.visitLdcInsn(value); }
        @Override public void visitIincInsn(int local, int by) { tell(); super.visitIincInsn(local, by); }

        @Override public void visitTypeInsn(int op, String type) { tell(); super.visitTypeInsn(op, type); }

        @Override public void visitLineNumber(int to, Label start) {
            line = to;
            super.visitLineNumber(to, start);
        }

        @Override public void visitFieldInsn(int op, String owner, String name, String desc) {
            tell();
            super.visitFieldInsn(op, owner, name, desc);
        }

        @Override public void visitMethodInsn(int op, String owner, String name, String desc, boolean isInterface) {
            tell();
            super.visitMethodInsn(op, owner, name, desc, isInterface);
        }

        @Override public void visitTableSwitchInsn(int low, int high, Label other, Label... to) {
            tell();
            super.visitTableSwitchInsn(low, high, other, to);
        }

        @Override public void visitLookupSwitchInsn(Label other, int[] keys, Label[] to) {
            tell();
            super.visitLookupSwitchInsn(other, keys, to);
        }

        @Override public void visitMultiANewArrayInsn(String type, int dimensions) {
            tell();
            super.visitMultiANewArrayInsn(type, dimensions);
        }
    }

    static byte[] telling(byte[] file, String owner) {
        ClassReader reader = new ClassReader(file);
        ClassWriter writer = new ClassWriter(ClassWriter.COMPUTE_MAXS);
        reader.accept(new ClassVisitor(ASM7, writer) {
            @Override public MethodVisitor visitMethod(int flags, String name, String desc, String sign, String[] thrown) {
                return new Telling(super.visitMethod(flags, name, desc, sign, thrown), String.join(" ", owner, name, desc));
            }
        }, 0);
        return writer.toByteArray();
    }

    static class Loader extends ClassLoader {
        final Path folder;

        Loader(Path folder) {
            super(MachineRuns.class.getClassLoader());
            this.folder = folder;
        }

        @Override protected Class<?> findClass(String name) throws ClassNotFoundException {
            try {
                byte[] file = telling(Files.readAllBytes(folder.resolve(name + ".class")), name);
                return defineClass(name, file, 0, file.length);
            } catch (IOException e) {
                throw new ClassNotFoundException(name);
            }
        }
    }

    static String end(Class<?> test, String method, String expected) throws Exception {
        try {
            test.getMethod(method).invoke(test.getDeclaredConstructor().newInstance());
            return expected.equals("-") ? "Passed" : "Failed Returned";
        } catch (InvocationTargetException e) {
            Throwable thrown = e.getCause();
            boolean met = !expected.equals("-") && Class.forName(expected.replace('/', '.')).isInstance(thrown);
            return met ? "Passed" : "Failed " + thrown.getClass().getName().replace('.', '/');
        }
    }

    public static void main(String[] words) throws Exception {
        for (int i = 1; i < words.length; i += 3) {
            instructions = new ArrayList<>();
            executed = new boolean[100000];
            System.out.println(end(new Loader(Path.of(words[0])).loadClass(words[i]), words[i + 1], words[i + 2]));
            for (int at = 0; at < instructions.size(); at++) {
                if (executed[at]) {
                    System.out.println(" " + instructions.get(at));
                }
            }
        }
    }
}
