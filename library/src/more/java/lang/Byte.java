package more.java.lang;

import java.lang.Class;

/** Members of java.lang.Byte. */
public final class Byte {
    public static final Class<?> TYPE = more.Known.named("byte");

    private Byte() {
    }

    public static java.lang.Byte make(java.lang.Byte a, java.lang.Byte b, byte of) {
        return java.lang.Byte.valueOf(of);
    }

    public static java.lang.Byte make(java.lang.Byte a, java.lang.Byte b, java.lang.String of) {
        return java.lang.Byte.valueOf(parseByte(of));
    }

    public static byte parseByte(java.lang.String of) {
        return (byte) Digits.read(of, 10, java.lang.Byte.MIN_VALUE, java.lang.Byte.MAX_VALUE);
    }

    public static byte parseByte(java.lang.String of, int radix) {
        return (byte) Digits.read(of, radix, java.lang.Byte.MIN_VALUE, java.lang.Byte.MAX_VALUE);
    }

    public static java.lang.Byte valueOf(java.lang.String of) {
        return java.lang.Byte.valueOf(parseByte(of));
    }

    public static java.lang.Byte valueOf(java.lang.String of, int radix) {
        return java.lang.Byte.valueOf(parseByte(of, radix));
    }

    public static java.lang.Byte decode(java.lang.String of) {
        return java.lang.Byte.valueOf((byte) Digits.decoded(of, java.lang.Byte.MIN_VALUE, java.lang.Byte.MAX_VALUE));
    }

    public static java.lang.String toString(byte of) {
        return java.lang.String.valueOf(of);
    }

    public static int compare(byte one, byte other) {
        return one - other;
    }

    public static int compareTo(java.lang.Byte one, java.lang.Byte other) {
        return compare(one.byteValue(), other.byteValue());
    }

    public static int hashCode(byte of) {
        return of;
    }
}
