package java.lang;

import more.floats.Decimal;
import more.floats.Functions;

/** A float as an object, as Double is. */
public final class Float extends Number implements Comparable<Float> {
    public static final float POSITIVE_INFINITY = 1.0f / 0.0f;
    public static final float NEGATIVE_INFINITY = -1.0f / 0.0f;
    public static final float NaN = 0.0f / 0.0f;
    public static final float MAX_VALUE = 0x1.fffffeP+127f;
    public static final float MIN_NORMAL = 0x1.0p-126f;
    public static final float MIN_VALUE = 0x0.000002P-126f;
    public static final int MAX_EXPONENT = 127;
    public static final int MIN_EXPONENT = -126;
    public static final int SIZE = 32;
    public static final int BYTES = 4;
    public static final Class<?> TYPE = more.Known.named("float");

    private final float value;

    public Float(float of) {
        value = of;
    }

    public Float(double of) {
        value = (float) of;
    }

    public Float(String of) {
        value = parseFloat(of);
    }

    public static Float valueOf(float of) {
        return new Float(of);
    }

    public static Float valueOf(String of) {
        return new Float(parseFloat(of));
    }

    public static float parseFloat(String of) {
        return intBitsToFloat(Decimal.parseFloat(of));
    }

    public static int floatToRawIntBits(float of) {
        return Float.floatToRawIntBits(of);
    }

    public static float intBitsToFloat(int of) {
        return Float.intBitsToFloat(of);
    }

    public static int floatToIntBits(float of) {
        return of != of ? 0x7fc00000 : floatToRawIntBits(of);
    }

    public static boolean isNaN(float of) {
        return of != of;
    }

    public static boolean isInfinite(float of) {
        return (floatToRawIntBits(of) & 0x7fffffff) == 0x7f800000;
    }

    public static boolean isFinite(float of) {
        return (floatToRawIntBits(of) & 0x7fffffff) < 0x7f800000;
    }

    public static String toString(float of) {
        return Decimal.textOfFloat(floatToRawIntBits(of));
    }

    public static String toHexString(float of) {
        if (of == 0.0f || !(Math.abs(of) < MIN_NORMAL)) {
            return Double.toHexString(of);
        }
        String text = Double.toHexString(Functions.scalb(of, Double.MIN_EXPONENT - MIN_EXPONENT));
        return text.substring(0, text.length() - 5) + MIN_EXPONENT;
    }

    public static int hashCode(float of) {
        return floatToIntBits(of);
    }

    public static int compare(float one, float other) {
        if (one < other) {
            return -1;
        }
        if (one > other) {
            return 1;
        }
        int x = floatToIntBits(one);
        int y = floatToIntBits(other);
        return x == y ? 0 : x < y ? -1 : 1;
    }

    public static float sum(float one, float other) {
        return one + other;
    }

    public static float max(float one, float other) {
        return Math.max(one, other);
    }

    public static float min(float one, float other) {
        return Math.min(one, other);
    }

    public boolean isNaN() {
        return value != value;
    }

    public boolean isInfinite() {
        return isInfinite(value);
    }

    public byte byteValue() {
        return (byte) value;
    }

    public short shortValue() {
        return (short) value;
    }

    public int intValue() {
        return (int) value;
    }

    public long longValue() {
        return (long) value;
    }

    public float floatValue() {
        return value;
    }

    public double doubleValue() {
        return value;
    }

    @Override
    public int compareTo(Float other) {
        return compare(value, other.value);
    }

    @Override
    public boolean equals(Object other) {
        return other instanceof Float && floatToIntBits(((Float) other).value) == floatToIntBits(value);
    }

    @Override
    public int hashCode() {
        return hashCode(value);
    }

    @Override
    public String toString() {
        return toString(value);
    }
}
