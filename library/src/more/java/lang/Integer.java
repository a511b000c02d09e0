package more.java.lang;

import java.lang.Class;
import java.lang.Math;

/** Members of java.lang.Integer. */
public final class Integer {
    public static final Class<?> TYPE = more.Known.named("int");

    private Integer() {
    }

    public static java.lang.Integer make(java.lang.Integer a, java.lang.Integer b, int of) {
        return java.lang.Integer.valueOf(of);
    }

    public static java.lang.Integer make(java.lang.Integer a, java.lang.Integer b, java.lang.String of) {
        return java.lang.Integer.valueOf(parseInt(of));
    }

    public static int parseInt(java.lang.String of) {
        return (int) Digits.read(of, 10, java.lang.Integer.MIN_VALUE, java.lang.Integer.MAX_VALUE);
    }

    public static int parseInt(java.lang.String of, int radix) {
        return (int) Digits.read(of, radix, java.lang.Integer.MIN_VALUE, java.lang.Integer.MAX_VALUE);
    }

    public static java.lang.Integer valueOf(java.lang.String of) {
        return java.lang.Integer.valueOf(parseInt(of));
    }

    public static java.lang.Integer valueOf(java.lang.String of, int radix) {
        return java.lang.Integer.valueOf(parseInt(of, radix));
    }

    public static java.lang.Integer decode(java.lang.String of) {
        return java.lang.Integer.valueOf((int) Digits.decoded(of, java.lang.Integer.MIN_VALUE, java.lang.Integer.MAX_VALUE));
    }

    public static java.lang.String toString(int of) {
        return java.lang.String.valueOf(of);
    }

    public static int compare(int one, int other) {
        return one < other ? -1 : one == other ? 0 : 1;
    }

    public static int compareTo(java.lang.Integer one, java.lang.Integer other) {
        return compare(one.intValue(), other.intValue());
    }

    public static int hashCode(int of) {
        return of;
    }

    public static int compareTo(java.lang.Object one, java.lang.Object other) {
        return compareTo((java.lang.Integer) one, (java.lang.Integer) other);
    }

    public static java.lang.String toString(int of, int radix) {
        return Digits.written(of, radix);
    }

    public static java.lang.String toHexString(int of) {
        return Digits.bits(of & 0xffffffffL, 4);
    }

    public static java.lang.String toOctalString(int of) {
        return Digits.bits(of & 0xffffffffL, 3);
    }

    public static java.lang.String toBinaryString(int of) {
        return Digits.bits(of & 0xffffffffL, 1);
    }

    public static int max(int one, int other) {
        return Math.max(one, other);
    }

    public static int min(int one, int other) {
        return Math.min(one, other);
    }

    public static int sum(int one, int other) {
        return one + other;
    }

    public static int signum(int of) {
        return of >> 31 | -of >>> 31;
    }

    public static int bitCount(int of) {
        int count = 0;
        for (int left = of; left != 0; left &= left - 1) {
            count++;
        }
        return count;
    }

    public static int numberOfLeadingZeros(int of) {
        int count = 32;
        for (int left = of; left != 0; left >>>= 1) {
            count--;
        }
        return count;
    }

    public static int numberOfTrailingZeros(int of) {
        int count = 0;
        while (count < 32 && (of >> count & 1) == 0) {
            count++;
        }
        return count;
    }

    public static int highestOneBit(int of) {
        return of == 0 ? 0 : 1 << 31 - numberOfLeadingZeros(of);
    }

    public static int lowestOneBit(int of) {
        return of & -of;
    }

    public static int rotateLeft(int of, int by) {
        return of << by | of >>> -by;
    }

    public static int rotateRight(int of, int by) {
        return of >>> by | of << -by;
    }

    public static int reverseBytes(int of) {
        return of << 24 | (of & 0xff00) << 8 | of >>> 8 & 0xff00 | of >>> 24;
    }

    public static byte byteValue(java.lang.Integer of) {
        return (byte) of.intValue();
    }

    public static short shortValue(java.lang.Integer of) {
        return (short) of.intValue();
    }
}
