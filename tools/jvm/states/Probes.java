package states;

import java.util.ArrayList;
import java.util.HashMap;
import java.util.List;
import java.util.Map;
import org.objectweb.asm.ClassReader;
import org.objectweb.asm.ClassWriter;
import org.objectweb.asm.MethodTooLargeException;
import org.objectweb.asm.Opcodes;
import org.objectweb.asm.tree.AbstractInsnNode;
import org.objectweb.asm.tree.ClassNode;
import org.objectweb.asm.tree.InsnList;
import org.objectweb.asm.tree.InsnNode;
import org.objectweb.asm.tree.LabelNode;
import org.objectweb.asm.tree.LdcInsnNode;
import org.objectweb.asm.tree.LineNumberNode;
import org.objectweb.asm.tree.MethodInsnNode;
import org.objectweb.asm.tree.MethodNode;

/**
 * Puts a call of the probe before each instruction of a class file. A method that has no room for these has one before
 * each run of instructions that jumps don't part; and a class initializer without jumps that has no room for these
 * either has them before all of its code, which becomes a method of its own.
 */
final class Probes {
    private final Program program;
    private final Map<String, Integer> numbers = new HashMap<>();

    Probes(Program program) {
        this.program = program;
    }

    /** The number of a line of a class. */
    int number(String owner, int line) {
        return numbers.computeIfAbsent(owner + ":" + line, name -> numbers.size());
    }

    byte[] into(byte[] file) {
        Map<String, Integer> tried = new HashMap<>();
        while (true) {
            try {
                return into(file, tried);
            } catch (MethodTooLargeException large) {
                if (tried.merge(large.getMethodName() + large.getDescriptor(), 1, Integer::sum) > 2) {
                    throw large;
                }
            }
        }
    }

    /** The methods by name and descriptor, with how often each was found to be too large. */
    private byte[] into(byte[] file, Map<String, Integer> tried) {
        ClassNode owner = new ClassNode();
        new ClassReader(file).accept(owner, ClassReader.SKIP_FRAMES);
        for (MethodNode method : new ArrayList<>(owner.methods)) {
            int times = tried.getOrDefault(method.name + method.desc, 0);
            if (times < 2) {
                probe(owner, method, times == 0);
            } else if (method.name.equals("<clinit>") && isStraight(method)) {
                probeBefore(owner, method);
            } else {
                throw new IllegalStateException(owner.name + "." + method.name + method.desc + " is too large for probes");
            }
        }
        return written(owner);
    }

    /** Instructions that follow each other on one line without a jump into them or out of them. */
    private static final class Run {
        final AbstractInsnNode first;
        final int line;
        int count;

        Run(AbstractInsnNode first, int line) {
            this.first = first;
            this.line = line;
        }
    }

    /** The runs of a method; each instruction alone where that is asked. */
    private static List<Run> runs(MethodNode method, boolean isEachAlone) {
        List<Run> runs = new ArrayList<>();
        Run last = null;
        int line = 0;
        for (AbstractInsnNode node : method.instructions.toArray()) {
            if (node instanceof LineNumberNode) {
                line = ((LineNumberNode) node).line;
            }
            if (node.getOpcode() < 0) {
                last = node instanceof LabelNode ? null : last;
                continue;
            }
            if (last == null) {
                last = new Run(node, line);
                runs.add(last);
            }
            last.count++;
            last = isEachAlone || isJump(node) ? null : last;
        }
        return runs;
    }

    private static boolean isJump(AbstractInsnNode node) {
        int type = node.getType();
        return type == AbstractInsnNode.JUMP_INSN || type == AbstractInsnNode.TABLESWITCH_INSN || type == AbstractInsnNode.LOOKUPSWITCH_INSN;
    }

    private static boolean isStraight(MethodNode method) {
        for (AbstractInsnNode node : method.instructions) {
            if (isJump(node)) {
                return false;
            }
        }
        return method.tryCatchBlocks.isEmpty();
    }

    private InsnList call(ClassNode owner, Run run) {
        InsnList call = new InsnList();
        call.add(new LdcInsnNode(number(owner.name, run.line)));
        if (run.count > 1) {
            call.add(new LdcInsnNode(run.count));
        }
        call.add(new MethodInsnNode(Opcodes.INVOKESTATIC, "states/Probe", "at", run.count > 1 ? "(II)V" : "(I)V", false));
        return call;
    }

    private void probe(ClassNode owner, MethodNode method, boolean isEachAlone) {
        for (Run run : runs(method, isEachAlone)) {
            method.instructions.insertBefore(run.first, call(owner, run));
        }
    }

    private void probeBefore(ClassNode owner, MethodNode method) {
        MethodNode before = new MethodNode(Opcodes.ACC_STATIC, method.name, method.desc, null, null);
        for (Run run : runs(method, false)) {
            before.instructions.add(call(owner, run));
        }
        method.name = "after probes";
        method.access = Opcodes.ACC_PRIVATE | Opcodes.ACC_STATIC;
        boolean isInterface = (owner.access & Opcodes.ACC_INTERFACE) != 0;
        before.instructions.add(new MethodInsnNode(Opcodes.INVOKESTATIC, owner.name, method.name, method.desc, isInterface));
        before.instructions.add(new InsnNode(Opcodes.RETURN));
        owner.methods.add(before);
    }

    private byte[] written(ClassNode owner) {
        ClassWriter writer = new ClassWriter(ClassWriter.COMPUTE_FRAMES) {
            @Override
            protected String getCommonSuperClass(String one, String other) {
                List<String> supers = supers(one);
                for (String name : supers(other)) {
                    if (supers.contains(name)) {
                        return name;
                    }
                }
                return "java/lang/Object";
            }
        };
        owner.accept(writer);
        return writer.toByteArray();
    }

    private List<String> supers(String name) {
        List<String> supers = new ArrayList<>();
        for (String above = name; above != null; above = program.superOf(above)) {
            supers.add(above);
        }
        return supers;
    }
}
