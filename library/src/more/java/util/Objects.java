package more.java.util;

import java.util.Comparator;
import java.util.function.Supplier;

/** Members of java.util.Objects. */
public final class Objects {
    private Objects() {
    }

    public static Object requireNonNull(Object of) {
        if (of == null) {
            throw new NullPointerException();
        }
        return of;
    }

    public static Object requireNonNull(Object of, String message) {
        if (of == null) {
            throw new NullPointerException(message);
        }
        return of;
    }

    public static Object requireNonNull(Object of, Supplier<String> message) {
        if (of == null) {
            throw new NullPointerException(message.get());
        }
        return of;
    }

    public static String toString(Object of) {
        return String.valueOf(of);
    }

    public static String toString(Object of, String other) {
        return of == null ? other : of.toString();
    }

    public static boolean isNull(Object of) {
        return of == null;
    }

    public static boolean nonNull(Object of) {
        return of != null;
    }

    public static int hash(Object[] of) {
        return java.util.Arrays.hashCode(of);
    }

    public static boolean deepEquals(Object one, Object other) {
        return one == other || one != null && other != null
            && java.util.Arrays.deepEquals(new Object[] {one}, new Object[] {other});
    }

    public static int compare(Object one, Object other, Comparator by) {
        return one == other ? 0 : by.compare(one, other);
    }
}
