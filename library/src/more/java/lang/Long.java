package more.java.lang;

import java.lang.Class;

/** Members of java.lang.Long. */
public final class Long {
    public static final Class<?> TYPE = more.Known.named("long");

    private Long() {
    }

    public static java.lang.Long make(java.lang.Long a, java.lang.Long b, long of) {
        return java.lang.Long.valueOf(of);
    }

    public static java.lang.Long make(java.lang.Long a, java.lang.Long b, java.lang.String of) {
        return java.lang.Long.valueOf(parseLong(of));
    }

    public static long parseLong(java.lang.String of) {
        return (long) Digits.read(of, 10, java.lang.Long.MIN_VALUE, java.lang.Long.MAX_VALUE);
    }

    public static long parseLong(java.lang.String of, int radix) {
        return (long) Digits.read(of, radix, java.lang.Long.MIN_VALUE, java.lang.Long.MAX_VALUE);
    }

    public static java.lang.Long valueOf(java.lang.String of) {
        return java.lang.Long.valueOf(parseLong(of));
    }

    public static java.lang.Long valueOf(java.lang.String of, int radix) {
        return java.lang.Long.valueOf(parseLong(of, radix));
    }

    public static java.lang.Long decode(java.lang.String of) {
        return java.lang.Long.valueOf((long) Digits.decoded(of, java.lang.Long.MIN_VALUE, java.lang.Long.MAX_VALUE));
    }

    public static java.lang.String toString(long of) {
        return java.lang.String.valueOf(of);
    }

    public static int compare(long one, long other) {
        return one < other ? -1 : one == other ? 0 : 1;
    }

    public static int compareTo(java.lang.Long one, java.lang.Long other) {
        return compare(one.longValue(), other.longValue());
    }

    public static int hashCode(long of) {
        return (int) (of ^ of >>> 32);
    }

    public static java.lang.String toString(long of, int radix) {
        return Digits.written(of, radix);
    }

    public static java.lang.String toHexString(long of) {
        return Digits.bits(of, 4);
    }

    public static java.lang.String toOctalString(long of) {
        return Digits.bits(of, 3);
    }

    public static java.lang.String toBinaryString(long of) {
        return Digits.bits(of, 1);
    }

    public static int bitCount(long of) {
        int count = 0;
        for (long left = of; left != 0; left &= left - 1) {
            count++;
        }
        return count;
    }

    public static int numberOfLeadingZeros(long of) {
        int count = 64;
        for (long left = of; left != 0; left >>>= 1) {
            count--;
        }
        return count;
    }

    public static int numberOfTrailingZeros(long of) {
        int count = 0;
        while (count < 64 && (of >> count & 1) == 0) {
            count++;
        }
        return count;
    }

    public static long rotateLeft(long of, int by) {
        return of << by | of >>> -by;
    }

    public static long rotateRight(long of, int by) {
        return of >>> by | of << -by;
    }
}
