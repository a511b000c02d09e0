package java.util;

/** The numbers of Java's own; where no seed is given it is 0. */
public class Random implements java.io.Serializable {
    private long seed;
    private double kept;
    private boolean hasKept;

    public Random() {
        this(0);
    }

    public Random(long seed) {
        setSeed(seed);
    }

    public void setSeed(long to) {
        seed = (to ^ 0x5DEECE66DL) & (1L << 48) - 1;
        hasKept = false;
    }

    protected int next(int bits) {
        seed = seed * 0x5DEECE66DL + 0xBL & (1L << 48) - 1;
        return (int) (seed >>> 48 - bits);
    }

    public int nextInt() {
        return next(32);
    }

    public int nextInt(int bound) {
        if (bound <= 0) {
            throw new IllegalArgumentException("bound must be positive");
        }
        int found = next(31);
        int last = bound - 1;
        if ((bound & last) == 0) {
            return (int) (bound * (long) found >> 31);
        }
        int taken = found;
        found = taken % bound;
        while (taken - found + last < 0) {
            taken = next(31);
            found = taken % bound;
        }
        return found;
    }

    public long nextLong() {
        return ((long) next(32) << 32) + next(32);
    }

    public double nextDouble() {
        return (((long) next(26) << 27) + next(27)) * 0x1.0p-53;
    }

    public float nextFloat() {
        return next(24) * 0x1.0p-24f;
    }

    public double nextGaussian() {
        if (hasKept) {
            hasKept = false;
            return kept;
        }
        double one;
        double other;
        double size;
        do {
            one = 2 * nextDouble() - 1;
            other = 2 * nextDouble() - 1;
            size = one * one + other * other;
        } while (size >= 1 || size == 0);
        double by = StrictMath.sqrt(-2 * StrictMath.log(size) / size);
        kept = other * by;
        hasKept = true;
        return one * by;
    }

    public boolean nextBoolean() {
        return next(1) != 0;
    }

    public void nextBytes(byte[] into) {
        int at = 0;
        while (at < into.length) {
            int some = nextInt();
            for (int left = 4; left > 0 && at < into.length; left--) {
                into[at++] = (byte) some;
                some >>= 8;
            }
        }
    }
}
