package more.java.lang;

/** Members of java.lang.Math. */
public final class Math {
    private Math() {
    }

    public static int addExact(int one, int other) {
        return toIntExact((long) one + other);
    }

    public static int subtractExact(int one, int other) {
        return toIntExact((long) one - other);
    }

    public static int multiplyExact(int one, int other) {
        return toIntExact((long) one * other);
    }

    public static int negateExact(int of) {
        return toIntExact(-(long) of);
    }

    public static int toIntExact(long of) {
        if ((int) of != of) {
            throw new ArithmeticException("integer overflow");
        }
        return (int) of;
    }

    public static long addExact(long one, long other) {
        long sum = one + other;
        if (((one ^ sum) & (other ^ sum)) < 0) {
            throw new ArithmeticException("long overflow");
        }
        return sum;
    }

    public static long subtractExact(long one, long other) {
        long difference = one - other;
        if (((one ^ other) & (one ^ difference)) < 0) {
            throw new ArithmeticException("long overflow");
        }
        return difference;
    }

    public static long multiplyExact(long one, long other) {
        long product = one * other;
        if (one != 0 && (product / one != other || one == -1 && other == java.lang.Long.MIN_VALUE)) {
            throw new ArithmeticException("long overflow");
        }
        return product;
    }

    public static int floorDiv(int one, int other) {
        int found = one / other;
        return (one ^ other) < 0 && found * other != one ? found - 1 : found;
    }

    public static long floorDiv(long one, long other) {
        long found = one / other;
        return (one ^ other) < 0 && found * other != one ? found - 1 : found;
    }

    public static long floorMod(long one, long other) {
        return one - floorDiv(one, other) * other;
    }
}
