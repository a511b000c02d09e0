package more.java.lang;

import java.lang.Boolean;
import java.lang.Character;
import java.lang.Integer;
import java.lang.Number;

/** Members of java.lang.Comparable, which the boxes are too, though the profile's own are not. */
public final class Comparable {
    private Comparable() {
    }

    public static boolean isInstance(Object of) {
        return of instanceof java.lang.Comparable || of instanceof Number && isBox((Number) of) || of instanceof Character
            || of instanceof Boolean;
    }

    private static boolean isBox(Number of) {
        return of instanceof Integer || of instanceof java.lang.Long || of instanceof java.lang.Short
            || of instanceof java.lang.Byte;
    }

    public static Object cast(Object of) {
        return of == null || isInstance(of) ? of : (java.lang.Comparable) of;
    }

    public static int compareTo(java.lang.Comparable one, Object other) {
        return compare(one, other);
    }

    private static int compare(Object one, Object other) {
        if (one instanceof Integer) {
            return Integer.compare((Integer) one, (Integer) other);
        }
        if (one instanceof java.lang.Long) {
            return java.lang.Long.compare((java.lang.Long) one, (java.lang.Long) other);
        }
        if (one instanceof java.lang.Short) {
            return java.lang.Short.compare((java.lang.Short) one, (java.lang.Short) other);
        }
        if (one instanceof java.lang.Byte) {
            return java.lang.Byte.compare((java.lang.Byte) one, (java.lang.Byte) other);
        }
        if (one instanceof Character) {
            return Character.compare((Character) one, (Character) other);
        }
        if (one instanceof Boolean) {
            return Boolean.compare((Boolean) one, (Boolean) other);
        }
        return ((java.lang.Comparable) one).compareTo(other);
    }
}
