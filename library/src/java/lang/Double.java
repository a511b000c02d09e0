package java.lang;

import more.floats.Decimal;

/** A double as an object. Its bits are what it is here, so going to them and back are calls that give what they take. */
public final class Double extends Number implements Comparable<Double> {
    public static final double POSITIVE_INFINITY = 1.0 / 0.0;
    public static final double NEGATIVE_INFINITY = -1.0 / 0.0;
    public static final double NaN = 0.0d / 0.0;
    public static final double MAX_VALUE = 0x1.fffffffffffffP+1023;
    public static final double MIN_NORMAL = 0x1.0p-1022;
    public static final double MIN_VALUE = 0x0.0000000000001P-1022;
    public static final int MAX_EXPONENT = 1023;
    public static final int MIN_EXPONENT = -1022;
    public static final int SIZE = 64;
    public static final int BYTES = 8;
    public static final Class<?> TYPE = more.Known.named("double");

    private final double value;

    public Double(double of) {
        value = of;
    }

    public Double(String of) {
        value = parseDouble(of);
    }

    public static Double valueOf(double of) {
        return new Double(of);
    }

    public static Double valueOf(String of) {
        return new Double(parseDouble(of));
    }

    public static double parseDouble(String of) {
        return longBitsToDouble(Decimal.parse(of));
    }

    public static long doubleToRawLongBits(double of) {
        return Double.doubleToRawLongBits(of);
    }

    public static double longBitsToDouble(long of) {
        return Double.longBitsToDouble(of);
    }

    public static long doubleToLongBits(double of) {
        return of != of ? 0x7ff8L << 48 : doubleToRawLongBits(of);
    }

    public static boolean isNaN(double of) {
        return of != of;
    }

    public static boolean isInfinite(double of) {
        return (doubleToRawLongBits(of) & -1L >>> 1) == 0x7ffL << 52;
    }

    public static boolean isFinite(double of) {
        return (doubleToRawLongBits(of) & -1L >>> 1) < 0x7ffL << 52;
    }

    public static String toString(double of) {
        return Decimal.text(doubleToRawLongBits(of));
    }

    public static String toHexString(double of) {
        long bits = doubleToRawLongBits(of);
        String sign = bits < 0 ? "-" : "";
        int scale = (int) (bits >>> 52) & 0x7ff;
        long fraction = bits & (1L << 52) - 1;
        if (scale == 0x7ff) {
            return toString(of);
        }
        if (scale == 0 && fraction == 0) {
            return sign + "0x0.0p0";
        }
        String digits = Long.toHexString(fraction | 1L << 52).substring(1);
        int end = 13;
        while (end > 1 && digits.charAt(end - 1) == '0') {
            end--;
        }
        return sign + (scale == 0 ? "0x0." : "0x1.") + digits.substring(0, end) + "p" + (scale == 0 ? -1022 : scale - 1023);
    }

    public static int hashCode(double of) {
        long bits = doubleToLongBits(of);
        return (int) (bits ^ bits >>> 32);
    }

    public static int compare(double one, double other) {
        if (one < other) {
            return -1;
        }
        if (one > other) {
            return 1;
        }
        long x = doubleToLongBits(one);
        long y = doubleToLongBits(other);
        return x == y ? 0 : x < y ? -1 : 1;
    }

    public static double sum(double one, double other) {
        return one + other;
    }

    public static double max(double one, double other) {
        return Math.max(one, other);
    }

    public static double min(double one, double other) {
        return Math.min(one, other);
    }

    public boolean isNaN() {
        return value != value;
    }

    public boolean isInfinite() {
        return isInfinite(value);
    }

    public byte byteValue() {
        return (byte) value;
    }

    public short shortValue() {
        return (short) value;
    }

    public int intValue() {
        return (int) value;
    }

    public long longValue() {
        return (long) value;
    }

    public float floatValue() {
        return (float) value;
    }

    public double doubleValue() {
        return value;
    }

    @Override
    public int compareTo(Double other) {
        return compare(value, other.value);
    }

    @Override
    public boolean equals(Object other) {
        return other instanceof Double && doubleToLongBits(((Double) other).value) == doubleToLongBits(value);
    }

    @Override
    public int hashCode() {
        return hashCode(value);
    }

    @Override
    public String toString() {
        return toString(value);
    }
}
