package more.floats;

/**
 * Arrays of floats and doubles, which are arrays of ints and longs, and of Numbers, which are arrays of objects: each that is made is
 * remembered, so that it is known from one of integers or objects. Within this class an array's type is the one of the array that is
 * there; everywhere else `tools/prepare` puts calls of these methods for what asks for it.
 */
public final class Arrays {
    /** Those that were made, at their hash codes or behind; a power of two of places, of which at least half are empty. */
    private static Object[] made;
    private static int count;

    private Arrays() {
    }

    private static void add(Object of) {
        if (made == null) {
            made = new Object[64];
        } else if (2 * count >= made.length) {
            Object[] old = made;
            made = new Object[4 * old.length];
            for (int at = 0; at < old.length; at++) {
                if (old[at] != null) {
                    put(old[at]);
                }
            }
        }
        put(of);
        count++;
    }

    private static void put(Object of) {
        Object[] room = made;
        int last = room.length - 1;
        int at = of.hashCode() & last;
        while (room[at] != null) {
            at = at + 1 & last;
        }
        room[at] = of;
    }

    public static boolean isOfNumbers(Object of) {
        return of instanceof long[] || of instanceof int[];
    }

    public static boolean knows(Object of) {
        Object[] room = made;
        if (room == null) {
            return false;
        }
        int last = room.length - 1;
        int at = of.hashCode() & last;
        while (room[at] != null) {
            if (room[at] == of) {
                return true;
            }
            at = at + 1 & last;
        }
        return false;
    }

    private static ClassCastException unlike(String kind) {
        return new ClassCastException("not an array of " + kind);
    }

    public static Object clone(Object of) {
        Object copy = of instanceof long[] ? ((long[]) of).clone() : of instanceof int[] ? ((int[]) of).clone() : ((Object[]) of).clone();
        add(copy);
        return copy;
    }

    /** A copy of an array by the name of one of objects, which may be one of arrays of floats, or of Numbers. */
    public static Object cloneAny(Object of) {
        Object copy = ((Object[]) of).clone();
        if (knows(of)) {
            add(copy);
        }
        return copy;
    }

    private static boolean isOfArrays(Object of) {
        return of instanceof long[][] || of instanceof int[][] || of instanceof long[][][] || of instanceof int[][][];
    }

    /** Stores in an array by the name of one of objects, which may be one of arrays of floats, or of Numbers; gives true. */
    public static boolean stored(Object[] into, int at, Object of) {
        if (of != null && into != null && at >= 0 && at < into.length && !takes(into, of)) {
            throw new ArrayStoreException("not an element of this array");
        }
        into[at] = of;
        return true;
    }

    private static boolean takes(Object[] into, Object of) {
        return isOfArrays(into) ? knows(into) == knows(of) : !knows(into) || of instanceof Number;
    }

    /** Copies between arrays of one kind; gives false where that isn't one of numbers of 32 or 64 bits, or of arrays of these. */
    public static boolean copy(Object from, int at, Object to, int start, int length) {
        if (isOfArrays(to) && from instanceof Object[]) {
            copyArrays((Object[]) from, at, (Object[]) to, start, length);
            return true;
        }
        if (from instanceof long[] && to instanceof long[] && knows(from) == knows(to)) {
            long[] source = (long[]) from;
            long[] sink = (long[]) to;
            check(at, source.length, start, sink.length, length);
            if (source == sink && at < start) {
                for (int next = length - 1; next >= 0; next--) {
                    sink[start + next] = source[at + next];
                }
            } else {
                for (int next = 0; next < length; next++) {
                    sink[start + next] = source[at + next];
                }
            }
            return true;
        }
        if (from instanceof int[] && to instanceof int[] && knows(from) == knows(to)) {
            int[] source = (int[]) from;
            int[] sink = (int[]) to;
            check(at, source.length, start, sink.length, length);
            if (source == sink && at < start) {
                for (int next = length - 1; next >= 0; next--) {
                    sink[start + next] = source[at + next];
                }
            } else {
                for (int next = 0; next < length; next++) {
                    sink[start + next] = source[at + next];
                }
            }
            return true;
        }
        return false;
    }

    private static void copyArrays(Object[] source, int at, Object[] sink, int start, int length) {
        check(at, source.length, start, sink.length, length);
        if (source == sink && at < start) {
            for (int next = length - 1; next >= 0; next--) {
                sink[start + next] = source[at + next];
            }
        } else {
            for (int next = 0; next < length; next++) {
                stored(sink, start + next, source[at + next]);
            }
        }
    }

    private static void check(int at, int size, int start, int room, int length) {
        if (at < 0 || start < 0 || length < 0 || at > size - length || start > room - length) {
            throw new ArrayIndexOutOfBoundsException("arraycopy: last source index " + (at + length) + " out of bounds for length " + size);
        }
    }

    public static Object[] newNumbers(int length) {
        Object[] array = new Object[length];
        add(array);
        return array;
    }

    public static boolean isNumbers(Object of) {
        return of instanceof Integer[] || of instanceof Long[] || of instanceof Short[] || of instanceof Byte[] || of instanceof more.java.lang.Number[]
            || of instanceof Object[] && !isOfArrays(of) && knows(of);
    }

    public static Object[] toNumbers(Object of) {
        if (of != null && !isNumbers(of)) {
            throw unlike("Numbers");
        }
        return (Object[]) of;
    }

    public static boolean isLongs(Object of) {
        return of instanceof long[] && !knows(of);
    }

    public static long[] toLongs(Object of) {
        if (of != null && knows(of)) {
            throw unlike("longs");
        }
        return (long[]) of;
    }

    public static boolean isLongs2(Object of) {
        return of instanceof long[][] && !knows(of);
    }

    public static long[][] toLongs2(Object of) {
        if (of != null && knows(of)) {
            throw unlike("longs");
        }
        return (long[][]) of;
    }

    public static boolean isLongs3(Object of) {
        return of instanceof long[][][] && !knows(of);
    }

    public static long[][][] toLongs3(Object of) {
        if (of != null && knows(of)) {
            throw unlike("longs");
        }
        return (long[][][]) of;
    }

    public static boolean isDoubles(Object of) {
        return of instanceof long[] && knows(of);
    }

    public static long[] toDoubles(Object of) {
        if (of != null && !knows(of)) {
            throw unlike("doubles");
        }
        return (long[]) of;
    }

    public static long[] newDoubles(int length) {
        long[] array = new long[length];
        add(array);
        return array;
    }

    public static boolean isDoubles2(Object of) {
        return of instanceof long[][] && knows(of);
    }

    public static long[][] toDoubles2(Object of) {
        if (of != null && !knows(of)) {
            throw unlike("doubles");
        }
        return (long[][]) of;
    }

    public static long[][] newDoubles2(int length) {
        long[][] array = new long[length][];
        add(array);
        return array;
    }

    public static long[][] newDoubles2(int length, int second) {
        long[][] array = new long[length][second];
        add(array);
        for (int at = 0; at < length; at++) {
            add(array[at]);
        }
        return array;
    }

    public static boolean isDoubles3(Object of) {
        return of instanceof long[][][] && knows(of);
    }

    public static long[][][] toDoubles3(Object of) {
        if (of != null && !knows(of)) {
            throw unlike("doubles");
        }
        return (long[][][]) of;
    }

    public static long[][][] newDoubles3(int length) {
        long[][][] array = new long[length][][];
        add(array);
        return array;
    }

    public static long[][][] newDoubles3(int length, int second) {
        long[][][] array = new long[length][second][];
        add(array);
        for (int at = 0; at < length; at++) {
            add(array[at]);
        }
        return array;
    }

    public static long[][][] newDoubles3(int length, int second, int third) {
        long[][][] array = new long[length][second][third];
        add(array);
        for (int at = 0; at < length; at++) {
            add(array[at]);
            for (int next = 0; next < second; next++) {
                add(array[at][next]);
            }
        }
        return array;
    }

    public static boolean isInts(Object of) {
        return of instanceof int[] && !knows(of);
    }

    public static int[] toInts(Object of) {
        if (of != null && knows(of)) {
            throw unlike("ints");
        }
        return (int[]) of;
    }

    public static boolean isInts2(Object of) {
        return of instanceof int[][] && !knows(of);
    }

    public static int[][] toInts2(Object of) {
        if (of != null && knows(of)) {
            throw unlike("ints");
        }
        return (int[][]) of;
    }

    public static boolean isInts3(Object of) {
        return of instanceof int[][][] && !knows(of);
    }

    public static int[][][] toInts3(Object of) {
        if (of != null && knows(of)) {
            throw unlike("ints");
        }
        return (int[][][]) of;
    }

    public static boolean isFloats(Object of) {
        return of instanceof int[] && knows(of);
    }

    public static int[] toFloats(Object of) {
        if (of != null && !knows(of)) {
            throw unlike("floats");
        }
        return (int[]) of;
    }

    public static int[] newFloats(int length) {
        int[] array = new int[length];
        add(array);
        return array;
    }

    public static boolean isFloats2(Object of) {
        return of instanceof int[][] && knows(of);
    }

    public static int[][] toFloats2(Object of) {
        if (of != null && !knows(of)) {
            throw unlike("floats");
        }
        return (int[][]) of;
    }

    public static int[][] newFloats2(int length) {
        int[][] array = new int[length][];
        add(array);
        return array;
    }

    public static int[][] newFloats2(int length, int second) {
        int[][] array = new int[length][second];
        add(array);
        for (int at = 0; at < length; at++) {
            add(array[at]);
        }
        return array;
    }

    public static boolean isFloats3(Object of) {
        return of instanceof int[][][] && knows(of);
    }

    public static int[][][] toFloats3(Object of) {
        if (of != null && !knows(of)) {
            throw unlike("floats");
        }
        return (int[][][]) of;
    }

    public static int[][][] newFloats3(int length) {
        int[][][] array = new int[length][][];
        add(array);
        return array;
    }

    public static int[][][] newFloats3(int length, int second) {
        int[][][] array = new int[length][second][];
        add(array);
        for (int at = 0; at < length; at++) {
            add(array[at]);
        }
        return array;
    }

    public static int[][][] newFloats3(int length, int second, int third) {
        int[][][] array = new int[length][second][third];
        add(array);
        for (int at = 0; at < length; at++) {
            add(array[at]);
            for (int next = 0; next < second; next++) {
                add(array[at][next]);
            }
        }
        return array;
    }
}
