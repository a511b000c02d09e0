package java.lang.reflect;

/** Arrays, by what they are. */
public final class Array {
    private Array() {
    }

    public static Object newInstance(Class<?> kind, int length) {
        Object[] made = more.Known.array(kind.getName(), length);
        if (made == null) {
            throw new NoClassDefFoundError(kind.getName());
        }
        return made;
    }

    public static int getLength(Object of) {
        if (of instanceof Object[]) {
            return ((Object[]) of).length;
        }
        if (of instanceof byte[]) {
            return ((byte[]) of).length;
        }
        if (of instanceof short[]) {
            return ((short[]) of).length;
        }
        if (of instanceof int[]) {
            return ((int[]) of).length;
        }
        if (of instanceof long[]) {
            return ((long[]) of).length;
        }
        if (of instanceof char[]) {
            return ((char[]) of).length;
        }
        if (of instanceof boolean[]) {
            return ((boolean[]) of).length;
        }
        throw unlike(of);
    }

    public static Object get(Object of, int at) {
        if (of instanceof Object[]) {
            return ((Object[]) of)[at];
        }
        if (of instanceof byte[]) {
            return ((byte[]) of)[at];
        }
        if (of instanceof short[]) {
            return ((short[]) of)[at];
        }
        if (of instanceof int[]) {
            return ((int[]) of)[at];
        }
        if (of instanceof long[]) {
            return ((long[]) of)[at];
        }
        if (of instanceof char[]) {
            return ((char[]) of)[at];
        }
        if (of instanceof boolean[]) {
            return ((boolean[]) of)[at];
        }
        throw unlike(of);
    }

    public static void set(Object of, int at, Object to) {
        if (!(of instanceof Object[])) {
            throw unlike(of);
        }
        try {
            ((Object[]) of)[at] = to;
        } catch (ArrayStoreException wrong) {
            throw new IllegalArgumentException("array element type mismatch");
        }
    }

    private static RuntimeException unlike(Object of) {
        return of == null ? new NullPointerException() : new IllegalArgumentException("Argument is not an array");
    }
}
