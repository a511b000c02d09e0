package java.util.concurrent;

import java.util.Random;

/** The one thread's numbers; their seed is 0. */
public class ThreadLocalRandom extends Random {
    private static ThreadLocalRandom one;

    private ThreadLocalRandom() {
    }

    public static ThreadLocalRandom current() {
        if (one == null) {
            one = new ThreadLocalRandom();
        }
        return one;
    }

    public int nextInt(int from, int to) {
        if (from >= to) {
            throw new IllegalArgumentException("bound must be greater than origin");
        }
        return (int) nextLong(from, to);
    }

    public long nextLong(long to) {
        if (to <= 0) {
            throw new IllegalArgumentException("bound must be positive");
        }
        return nextLong(0, to);
    }

    public long nextLong(long from, long to) {
        if (from >= to) {
            throw new IllegalArgumentException("bound must be greater than origin");
        }
        long found = nextLong();
        if (to - from > 0) {
            return from + (found >>> 1) % (to - from);
        }
        while (found < from || found >= to) {
            found = nextLong();
        }
        return found;
    }

    public double nextDouble(double to) {
        return nextDouble() * to;
    }

    public double nextDouble(double from, double to) {
        return from + nextDouble() * (to - from);
    }
}
