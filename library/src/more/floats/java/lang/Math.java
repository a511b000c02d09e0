package more.floats.java.lang;

import java.lang.Double;
import java.lang.Float;
import more.floats.Functions;
import more.floats.Soft;

/** Members of java.lang.Math, and of StrictMath, that have floats. */
public final class Math {
    private static java.util.Random random;

    private Math() {
    }

    public static double sin(double of) {
        return Functions.sin(of);
    }

    public static double cos(double of) {
        return Functions.cos(of);
    }

    public static double tan(double of) {
        return Functions.tan(of);
    }

    public static double asin(double of) {
        return Functions.asin(of);
    }

    public static double acos(double of) {
        return Functions.acos(of);
    }

    public static double atan(double of) {
        return Functions.atan(of);
    }

    public static double exp(double of) {
        return Functions.exp(of);
    }

    public static double expm1(double of) {
        return Functions.expm1(of);
    }

    public static double log(double of) {
        return Functions.log(of);
    }

    public static double log10(double of) {
        return Functions.log10(of);
    }

    public static double log1p(double of) {
        return Functions.log1p(of);
    }

    public static double sinh(double of) {
        return Functions.sinh(of);
    }

    public static double cosh(double of) {
        return Functions.cosh(of);
    }

    public static double tanh(double of) {
        return Functions.tanh(of);
    }

    public static double cbrt(double of) {
        return Functions.cbrt(of);
    }

    public static double sqrt(double of) {
        return Functions.sqrt(of);
    }

    public static double atan2(double one, double other) {
        return Functions.atan2(one, other);
    }

    public static double pow(double one, double other) {
        return Functions.pow(one, other);
    }

    public static double hypot(double one, double other) {
        return Functions.hypot(one, other);
    }

    public static double IEEEremainder(double one, double other) {
        return Functions.remainder(one, other);
    }

    public static double floor(double of) {
        return Double.longBitsToDouble(Soft.floor(Double.doubleToRawLongBits(of)));
    }

    public static double ceil(double of) {
        return Double.longBitsToDouble(Soft.ceil(Double.doubleToRawLongBits(of)));
    }

    public static double rint(double of) {
        return Double.longBitsToDouble(Soft.rint(Double.doubleToRawLongBits(of)));
    }

    public static long round(double of) {
        return Soft.round(Double.doubleToRawLongBits(of));
    }

    public static int round(float of) {
        long found = Soft.round(Double.doubleToRawLongBits(of));
        return found > 0x7fffffff ? 0x7fffffff : found < -0x80000000L ? -0x80000000 : (int) found;
    }

    public static double random() {
        if (random == null) {
            random = new java.util.Random(0);
        }
        return random.nextDouble();
    }

    public static double abs(double of) {
        return Double.longBitsToDouble(Double.doubleToRawLongBits(of) & -1L >>> 1);
    }

    public static float abs(float of) {
        return Float.intBitsToFloat(Float.floatToRawIntBits(of) & -1 >>> 1);
    }

    public static double max(double one, double other) {
        if (one != one) {
            return one;
        }
        if (one == 0.0 && other == 0.0) {
            return Double.longBitsToDouble(Double.doubleToRawLongBits(one) & Double.doubleToRawLongBits(other));
        }
        return one >= other ? one : other;
    }

    public static float max(float one, float other) {
        if (one != one) {
            return one;
        }
        if (one == 0.0f && other == 0.0f) {
            return Float.intBitsToFloat(Float.floatToRawIntBits(one) & Float.floatToRawIntBits(other));
        }
        return one >= other ? one : other;
    }

    public static double min(double one, double other) {
        if (one != one) {
            return one;
        }
        if (one == 0.0 && other == 0.0) {
            return Double.longBitsToDouble(Double.doubleToRawLongBits(one) | Double.doubleToRawLongBits(other));
        }
        return one <= other ? one : other;
    }

    public static float min(float one, float other) {
        if (one != one) {
            return one;
        }
        if (one == 0.0f && other == 0.0f) {
            return Float.intBitsToFloat(Float.floatToRawIntBits(one) | Float.floatToRawIntBits(other));
        }
        return one <= other ? one : other;
    }

    public static double toRadians(double of) {
        return of * 0.017453292519943295;
    }

    public static double toDegrees(double of) {
        return of * 57.29577951308232;
    }

    public static double signum(double of) {
        return of == 0.0 || of != of ? of : copySign(1.0, of);
    }

    public static float signum(float of) {
        return of == 0.0f || of != of ? of : copySign(1.0f, of);
    }

    public static double copySign(double of, double sign) {
        return Double.longBitsToDouble(Double.doubleToRawLongBits(of) & -1L >>> 1 | Double.doubleToRawLongBits(sign) & 1L << 63);
    }

    public static float copySign(float of, float sign) {
        return Float.intBitsToFloat(Float.floatToRawIntBits(of) & -1 >>> 1 | Float.floatToRawIntBits(sign) & 1 << 31);
    }

    public static int getExponent(double of) {
        return ((int) (Double.doubleToRawLongBits(of) >>> 52) & 0x7ff) - 1023;
    }

    public static int getExponent(float of) {
        return (Float.floatToRawIntBits(of) >>> 23 & 0xff) - 127;
    }

    public static double ulp(double of) {
        double size = abs(of);
        if (size != size || size == Double.POSITIVE_INFINITY) {
            return size;
        }
        return size == Double.MAX_VALUE ? Functions.scalb(1.0, 971) : nextUp(size) - size;
    }

    public static float ulp(float of) {
        float size = abs(of);
        if (size != size || size == Float.POSITIVE_INFINITY) {
            return size;
        }
        return size == Float.MAX_VALUE ? (float) Functions.scalb(1.0, 104) : nextUp(size) - size;
    }

    public static double nextUp(double of) {
        if (of != of || of == Double.POSITIVE_INFINITY) {
            return of;
        }
        long bits = Double.doubleToRawLongBits(of + 0.0);
        return Double.longBitsToDouble(bits < 0 ? bits - 1 : bits + 1);
    }

    public static float nextUp(float of) {
        if (of != of || of == Float.POSITIVE_INFINITY) {
            return of;
        }
        int bits = Float.floatToRawIntBits(of + 0.0f);
        return Float.intBitsToFloat(bits < 0 ? bits - 1 : bits + 1);
    }

    public static double nextDown(double of) {
        return -nextUp(-of);
    }

    public static float nextDown(float of) {
        return -nextUp(-of);
    }

    public static double nextAfter(double from, double to) {
        return from < to ? nextUp(from) : from > to ? nextDown(from) : from == to ? to : from + to;
    }

    public static float nextAfter(float from, double to) {
        return from < to ? nextUp(from) : from > to ? nextDown(from) : from == to ? (float) to : from + (float) to;
    }

    public static double scalb(double of, int by) {
        return Functions.scalb(of, by);
    }

    public static float scalb(float of, int by) {
        return (float) Functions.scalb(of, by < -300 ? -300 : by > 300 ? 300 : by);
    }
}
