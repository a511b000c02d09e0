package java.lang.reflect;

/** The flags of classes and members. */
public class Modifier {
    public static final int PUBLIC = 1;
    public static final int PRIVATE = 2;
    public static final int PROTECTED = 4;
    public static final int STATIC = 8;
    public static final int FINAL = 16;
    public static final int SYNCHRONIZED = 32;
    public static final int VOLATILE = 64;
    public static final int TRANSIENT = 128;
    public static final int NATIVE = 256;
    public static final int INTERFACE = 512;
    public static final int ABSTRACT = 1024;
    public static final int STRICT = 2048;

    public static boolean isPublic(int flags) {
        return (flags & PUBLIC) != 0;
    }

    public static boolean isPrivate(int flags) {
        return (flags & PRIVATE) != 0;
    }

    public static boolean isProtected(int flags) {
        return (flags & PROTECTED) != 0;
    }

    public static boolean isStatic(int flags) {
        return (flags & STATIC) != 0;
    }

    public static boolean isFinal(int flags) {
        return (flags & FINAL) != 0;
    }

    public static boolean isSynchronized(int flags) {
        return (flags & SYNCHRONIZED) != 0;
    }

    public static boolean isVolatile(int flags) {
        return (flags & VOLATILE) != 0;
    }

    public static boolean isTransient(int flags) {
        return (flags & TRANSIENT) != 0;
    }

    public static boolean isNative(int flags) {
        return (flags & NATIVE) != 0;
    }

    public static boolean isInterface(int flags) {
        return (flags & INTERFACE) != 0;
    }

    public static boolean isAbstract(int flags) {
        return (flags & ABSTRACT) != 0;
    }

    public static boolean isStrict(int flags) {
        return (flags & STRICT) != 0;
    }
}
