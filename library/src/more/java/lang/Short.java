package more.java.lang;

import java.lang.Class;

/** Members of java.lang.Short. */
public final class Short {
    public static final Class<?> TYPE = more.Known.named("short");

    private Short() {
    }

    public static java.lang.Short make(java.lang.Short a, java.lang.Short b, short of) {
        return java.lang.Short.valueOf(of);
    }

    public static java.lang.Short make(java.lang.Short a, java.lang.Short b, java.lang.String of) {
        return java.lang.Short.valueOf(parseShort(of));
    }

    public static short parseShort(java.lang.String of) {
        return (short) Digits.read(of, 10, java.lang.Short.MIN_VALUE, java.lang.Short.MAX_VALUE);
    }

    public static short parseShort(java.lang.String of, int radix) {
        return (short) Digits.read(of, radix, java.lang.Short.MIN_VALUE, java.lang.Short.MAX_VALUE);
    }

    public static java.lang.Short valueOf(java.lang.String of) {
        return java.lang.Short.valueOf(parseShort(of));
    }

    public static java.lang.Short valueOf(java.lang.String of, int radix) {
        return java.lang.Short.valueOf(parseShort(of, radix));
    }

    public static java.lang.Short decode(java.lang.String of) {
        return java.lang.Short.valueOf((short) Digits.decoded(of, java.lang.Short.MIN_VALUE, java.lang.Short.MAX_VALUE));
    }

    public static java.lang.String toString(short of) {
        return java.lang.String.valueOf(of);
    }

    public static int compare(short one, short other) {
        return one - other;
    }

    public static int compareTo(java.lang.Short one, java.lang.Short other) {
        return compare(one.shortValue(), other.shortValue());
    }

    public static int hashCode(short of) {
        return of;
    }
}
