package more.java.util;

import java.util.AbstractList;
import java.util.Collection;
import java.util.Comparator;
import java.util.Iterator;
import java.util.List;
import java.util.NoSuchElementException;
import java.util.RandomAccess;
import java.util.function.IntFunction;

/** Members of java.util.Arrays. */
public final class Arrays {
    private Arrays() {
    }

    private static final class Fixed extends AbstractList<Object> implements RandomAccess, java.io.Serializable {
        private final Object[] of;

        Fixed(Object[] of) {
            this.of = of;
        }

        @Override
        public int size() {
            return of.length;
        }

        @Override
        public Object get(int at) {
            return of[at];
        }

        @Override
        public Object set(int at, Object to) {
            Object old = of[at];
            of[at] = to;
            return old;
        }

        @Override
        public Object[] toArray() {
            return java.util.Arrays.copyOf(of, of.length, Object[].class);
        }

        @Override
        public void sort(Comparator<? super Object> by) {
            java.util.Arrays.sort(of, by);
        }

        @Override
        public Iterator<Object> iterator() {
            return new Walk(of);
        }
    }

    private static final class Walk implements Iterator<Object> {
        private final Object[] of;
        private int at;

        Walk(Object[] of) {
            this.of = of;
        }

        @Override
        public boolean hasNext() {
            return at < of.length;
        }

        @Override
        public Object next() {
            if (at >= of.length) {
                throw new NoSuchElementException();
            }
            return of[at++];
        }
    }

    /** A list that changes with the array and that nothing is added to. */
    public static List asList(Object[] of) {
        if (of == null) {
            throw new NullPointerException();
        }
        return new Fixed(of);
    }

    private static void check(int length, int from, int to) {
        if (from > to) {
            throw new IllegalArgumentException("fromIndex(" + from + ") > toIndex(" + to + ")");
        }
        if (from < 0 || to > length) {
            throw new ArrayIndexOutOfBoundsException(from < 0 ? from : to);
        }
    }

    private static boolean isSame(Object one, Object other) {
        return one == null ? other == null : one.equals(other);
    }

    public static boolean equals(Object[] one, Object[] other) {
        if (one == other) {
            return true;
        }
        if (one == null || other == null || one.length != other.length) {
            return false;
        }
        for (int at = 0; at < one.length; at++) {
            if (!isSame(one[at], other[at])) {
                return false;
            }
        }
        return true;
    }

    public static boolean deepEquals(Object[] one, Object[] other) {
        if (one == other) {
            return true;
        }
        if (one == null || other == null || one.length != other.length) {
            return false;
        }
        for (int at = 0; at < one.length; at++) {
            if (!isDeeplySame(one[at], other[at])) {
                return false;
            }
        }
        return true;
    }

    static boolean isDeeplySame(Object one, Object other) {
        if (one instanceof Object[] && other instanceof Object[]) {
            return deepEquals((Object[]) one, (Object[]) other);
        }
        if (one instanceof byte[] && other instanceof byte[]) {
            return java.util.Arrays.equals((byte[]) one, (byte[]) other);
        }
        if (one instanceof short[] && other instanceof short[]) {
            return java.util.Arrays.equals((short[]) one, (short[]) other);
        }
        if (one instanceof int[] && other instanceof int[]) {
            return java.util.Arrays.equals((int[]) one, (int[]) other);
        }
        if (one instanceof long[] && other instanceof long[]) {
            return java.util.Arrays.equals((long[]) one, (long[]) other);
        }
        if (one instanceof char[] && other instanceof char[]) {
            return java.util.Arrays.equals((char[]) one, (char[]) other);
        }
        if (one instanceof boolean[] && other instanceof boolean[]) {
            return java.util.Arrays.equals((boolean[]) one, (boolean[]) other);
        }
        return isSame(one, other);
    }

    public static int hashCode(Object[] of) {
        if (of == null) {
            return 0;
        }
        int code = 1;
        for (int at = 0; at < of.length; at++) {
            code = 31 * code + (of[at] == null ? 0 : of[at].hashCode());
        }
        return code;
    }

    public static int deepHashCode(Object[] of) {
        if (of == null) {
            return 0;
        }
        int code = 1;
        for (int at = 0; at < of.length; at++) {
            code = 31 * code + deepCode(of[at]);
        }
        return code;
    }

    private static int deepCode(Object of) {
        if (of instanceof Object[]) {
            return deepHashCode((Object[]) of);
        }
        if (of instanceof byte[]) {
            return java.util.Arrays.hashCode((byte[]) of);
        }
        if (of instanceof short[]) {
            return java.util.Arrays.hashCode((short[]) of);
        }
        if (of instanceof int[]) {
            return java.util.Arrays.hashCode((int[]) of);
        }
        if (of instanceof long[]) {
            return java.util.Arrays.hashCode((long[]) of);
        }
        if (of instanceof char[]) {
            return java.util.Arrays.hashCode((char[]) of);
        }
        if (of instanceof boolean[]) {
            return java.util.Arrays.hashCode((boolean[]) of);
        }
        return of == null ? 0 : of.hashCode();
    }

    public static String toString(Object[] of) {
        if (of == null) {
            return "null";
        }
        StringBuilder made = new StringBuilder("[");
        for (int at = 0; at < of.length; at++) {
            made.append(at > 0 ? ", " : "").append(String.valueOf(of[at]));
        }
        return made.append("]").toString();
    }

    public static String deepToString(Object[] of) {
        if (of == null) {
            return "null";
        }
        StringBuilder made = new StringBuilder("[");
        for (int at = 0; at < of.length; at++) {
            made.append(at > 0 ? ", " : "").append(shown(of[at]));
        }
        return made.append("]").toString();
    }

    static String shown(Object of) {
        if (of instanceof Object[]) {
            return deepToString((Object[]) of);
        }
        if (of instanceof byte[]) {
            return java.util.Arrays.toString((byte[]) of);
        }
        if (of instanceof short[]) {
            return java.util.Arrays.toString((short[]) of);
        }
        if (of instanceof int[]) {
            return java.util.Arrays.toString((int[]) of);
        }
        if (of instanceof long[]) {
            return java.util.Arrays.toString((long[]) of);
        }
        if (of instanceof char[]) {
            return java.util.Arrays.toString((char[]) of);
        }
        if (of instanceof boolean[]) {
            return java.util.Arrays.toString((boolean[]) of);
        }
        return String.valueOf(of);
    }

    public static void fill(Object[] of, Object with) {
        for (int at = 0; at < of.length; at++) {
            of[at] = with;
        }
    }

    public static void fill(Object[] of, int from, int to, Object with) {
        check(of.length, from, to);
        for (int at = from; at < to; at++) {
            of[at] = with;
        }
    }

    public static void setAll(Object[] of, IntFunction function) {
        for (int at = 0; at < of.length; at++) {
            of[at] = function.apply(at);
        }
    }

    public static void setAll(int[] of, java.util.function.IntUnaryOperator function) {
        for (int at = 0; at < of.length; at++) {
            of[at] = function.applyAsInt(at);
        }
    }

    public static void setAll(long[] of, java.util.function.IntToLongFunction function) {
        for (int at = 0; at < of.length; at++) {
            of[at] = function.applyAsLong(at);
        }
    }

    /** An array of the kind of another one, with another length. */
    public static Object[] copyOf(Object[] of, int length) {
        Object[] made = more.java.lang.Kinds.array(of, length);
        System.arraycopy(of, 0, made, 0, Math.min(of.length, length));
        return made;
    }

    public static Object[] copyOfRange(Object[] of, int from, int to) {
        if (from > to) {
            throw new IllegalArgumentException(from + " > " + to);
        }
        if (from < 0 || from > of.length) {
            throw new ArrayIndexOutOfBoundsException(from);
        }
        Object[] made = more.java.lang.Kinds.array(of, to - from);
        System.arraycopy(of, from, made, 0, Math.min(of.length, to) - from);
        return made;
    }

    public static Object[] copyOfRange(Object[] of, int from, int to, Class kind) {
        if (from > to) {
            throw new IllegalArgumentException(from + " > " + to);
        }
        Object[] made = more.java.lang.Kinds.array(kind, to - from);
        System.arraycopy(of, from, made, 0, Math.min(of.length, to) - from);
        return made;
    }

    public static Object[] copyOf(Object[] of, int length, Class kind) {
        Object[] made = more.java.lang.Kinds.array(kind, length);
        System.arraycopy(of, 0, made, 0, Math.min(of.length, length));
        return made;
    }

    public static void sort(Object[] of) {
        sort(of, 0, of.length, null);
    }

    public static void sort(Object[] of, Comparator by) {
        sort(of, 0, of.length, by);
    }

    public static void sort(Object[] of, int from, int to) {
        sort(of, from, to, null);
    }

    public static void sort(Object[] of, int from, int to, Comparator by) {
        check(of.length, from, to);
        if (to - from < 2) {
            return;
        }
        if (to - from < SHORT) {
            insert(of, from, to, run(of, from, to, by), by);
        } else {
            merge(of, from, to, new Object[to - from], by);
        }
    }

    private static int compare(Object one, Object other, Comparator by) {
        return by == null ? ((Comparable) one).compareTo(other) : by.compare(one, other);
    }

    /** What is shorter is sorted by the comparisons of Java's own. */
    private static final int SHORT = 32;

    /** The end of what is in order from a place on; what falls all the way is turned round. */
    private static int run(Object[] of, int from, int to, Comparator by) {
        int end = from + 2;
        if (compare(of[from + 1], of[from], by) >= 0) {
            while (end < to && compare(of[end], of[end - 1], by) >= 0) {
                end++;
            }
            return end;
        }
        while (end < to && compare(of[end], of[end - 1], by) < 0) {
            end++;
        }
        for (int one = from, other = end - 1; one < other; one++, other--) {
            Object held = of[one];
            of[one] = of[other];
            of[other] = held;
        }
        return end;
    }

    /** Puts each from a place on among those before it, which are in order. */
    private static void insert(Object[] of, int from, int to, int sorted, Comparator by) {
        for (int next = sorted; next < to; next++) {
            Object held = of[next];
            int low = from;
            int high = next;
            while (low < high) {
                int middle = low + high >>> 1;
                if (compare(held, of[middle], by) < 0) {
                    high = middle;
                } else {
                    low = middle + 1;
                }
            }
            System.arraycopy(of, low, of, low + 1, next - low);
            of[low] = held;
        }
    }

    private static void merge(Object[] of, int from, int to, Object[] spare, Comparator by) {
        if (to - from < SHORT) {
            insert(of, from, to, run(of, from, to, by), by);
            return;
        }
        int middle = from + to >>> 1;
        merge(of, from, middle, spare, by);
        merge(of, middle, to, spare, by);
        if (compare(of[middle - 1], of[middle], by) <= 0) {
            return;
        }
        int one = from;
        int other = middle;
        for (int at = 0; at < to - from; at++) {
            boolean isOne = other == to || one < middle && compare(of[one], of[other], by) <= 0;
            spare[at] = isOne ? of[one++] : of[other++];
        }
        System.arraycopy(spare, 0, of, from, to - from);
    }

    public static int binarySearch(Object[] of, Object key) {
        return search(of, 0, of.length, key, null);
    }

    public static int binarySearch(Object[] of, Object key, Comparator by) {
        return search(of, 0, of.length, key, by);
    }

    public static int binarySearch(Object[] of, int from, int to, Object key) {
        check(of.length, from, to);
        return search(of, from, to, key, null);
    }

    public static int binarySearch(Object[] of, int from, int to, Object key, Comparator by) {
        check(of.length, from, to);
        return search(of, from, to, key, by);
    }

    private static int search(Object[] of, int from, int to, Object key, Comparator by) {
        int low = from;
        int high = to - 1;
        while (low <= high) {
            int middle = low + high >>> 1;
            int order = compare(of[middle], key, by);
            if (order == 0) {
                return middle;
            }
            if (order < 0) {
                low = middle + 1;
            } else {
                high = middle - 1;
            }
        }
        return -(low + 1);
    }

    // Numbers are put in order over steps that get shorter.

    private static int firstStep(int count) {
        return count < 3 ? 1 : count * 5 / 11;
    }

    private static int nextStep(int step) {
        return step == 2 ? 1 : step * 5 / 11;
    }

    // byte

    public static boolean equals(byte[] one, byte[] other) {
        if (one == other) {
            return true;
        }
        if (one == null || other == null || one.length != other.length) {
            return false;
        }
        for (int at = 0; at < one.length; at++) {
            if (one[at] != other[at]) {
                return false;
            }
        }
        return true;
    }

    public static int hashCode(byte[] of) {
        if (of == null) {
            return 0;
        }
        int code = 1;
        for (int at = 0; at < of.length; at++) {
            code = 31 * code + of[at];
        }
        return code;
    }

    public static String toString(byte[] of) {
        if (of == null) {
            return "null";
        }
        StringBuilder made = new StringBuilder("[");
        for (int at = 0; at < of.length; at++) {
            made.append(at > 0 ? ", " : "").append(of[at]);
        }
        return made.append("]").toString();
    }

    public static void fill(byte[] of, byte with) {
        fill(of, 0, of.length, with);
    }

    public static void fill(byte[] of, int from, int to, byte with) {
        check(of.length, from, to);
        for (int at = from; at < to; at++) {
            of[at] = with;
        }
    }

    public static byte[] copyOf(byte[] of, int length) {
        byte[] made = new byte[length];
        System.arraycopy(of, 0, made, 0, Math.min(of.length, length));
        return made;
    }

    public static byte[] copyOfRange(byte[] of, int from, int to) {
        if (from > to) {
            throw new IllegalArgumentException(from + " > " + to);
        }
        if (from < 0 || from > of.length) {
            throw new ArrayIndexOutOfBoundsException(from);
        }
        byte[] made = new byte[to - from];
        System.arraycopy(of, from, made, 0, Math.min(of.length, to) - from);
        return made;
    }

    public static void sort(byte[] of) {
        sort(of, 0, of.length);
    }

    public static void sort(byte[] of, int from, int to) {
        check(of.length, from, to);
        for (int step = firstStep(to - from); step > 0; step = nextStep(step)) {
            for (int at = from + step; at < to; at++) {
                byte held = of[at];
                int place = at;
                while (place >= from + step && of[place - step] > held) {
                    of[place] = of[place - step];
                    place -= step;
                }
                of[place] = held;
            }
        }
    }

    public static int binarySearch(byte[] of, byte key) {
        return search(of, 0, of.length, key);
    }

    public static int binarySearch(byte[] of, int from, int to, byte key) {
        check(of.length, from, to);
        return search(of, from, to, key);
    }

    private static int search(byte[] of, int from, int to, byte key) {
        int low = from;
        int high = to - 1;
        while (low <= high) {
            int middle = low + high >>> 1;
            if (of[middle] == key) {
                return middle;
            }
            if (of[middle] < key) {
                low = middle + 1;
            } else {
                high = middle - 1;
            }
        }
        return -(low + 1);
    }

    // short

    public static boolean equals(short[] one, short[] other) {
        if (one == other) {
            return true;
        }
        if (one == null || other == null || one.length != other.length) {
            return false;
        }
        for (int at = 0; at < one.length; at++) {
            if (one[at] != other[at]) {
                return false;
            }
        }
        return true;
    }

    public static int hashCode(short[] of) {
        if (of == null) {
            return 0;
        }
        int code = 1;
        for (int at = 0; at < of.length; at++) {
            code = 31 * code + of[at];
        }
        return code;
    }

    public static String toString(short[] of) {
        if (of == null) {
            return "null";
        }
        StringBuilder made = new StringBuilder("[");
        for (int at = 0; at < of.length; at++) {
            made.append(at > 0 ? ", " : "").append(of[at]);
        }
        return made.append("]").toString();
    }

    public static void fill(short[] of, short with) {
        fill(of, 0, of.length, with);
    }

    public static void fill(short[] of, int from, int to, short with) {
        check(of.length, from, to);
        for (int at = from; at < to; at++) {
            of[at] = with;
        }
    }

    public static short[] copyOf(short[] of, int length) {
        short[] made = new short[length];
        System.arraycopy(of, 0, made, 0, Math.min(of.length, length));
        return made;
    }

    public static short[] copyOfRange(short[] of, int from, int to) {
        if (from > to) {
            throw new IllegalArgumentException(from + " > " + to);
        }
        if (from < 0 || from > of.length) {
            throw new ArrayIndexOutOfBoundsException(from);
        }
        short[] made = new short[to - from];
        System.arraycopy(of, from, made, 0, Math.min(of.length, to) - from);
        return made;
    }

    public static void sort(short[] of) {
        sort(of, 0, of.length);
    }

    public static void sort(short[] of, int from, int to) {
        check(of.length, from, to);
        for (int step = firstStep(to - from); step > 0; step = nextStep(step)) {
            for (int at = from + step; at < to; at++) {
                short held = of[at];
                int place = at;
                while (place >= from + step && of[place - step] > held) {
                    of[place] = of[place - step];
                    place -= step;
                }
                of[place] = held;
            }
        }
    }

    public static int binarySearch(short[] of, short key) {
        return search(of, 0, of.length, key);
    }

    public static int binarySearch(short[] of, int from, int to, short key) {
        check(of.length, from, to);
        return search(of, from, to, key);
    }

    private static int search(short[] of, int from, int to, short key) {
        int low = from;
        int high = to - 1;
        while (low <= high) {
            int middle = low + high >>> 1;
            if (of[middle] == key) {
                return middle;
            }
            if (of[middle] < key) {
                low = middle + 1;
            } else {
                high = middle - 1;
            }
        }
        return -(low + 1);
    }

    // int

    public static boolean equals(int[] one, int[] other) {
        if (one == other) {
            return true;
        }
        if (one == null || other == null || one.length != other.length) {
            return false;
        }
        for (int at = 0; at < one.length; at++) {
            if (one[at] != other[at]) {
                return false;
            }
        }
        return true;
    }

    public static int hashCode(int[] of) {
        if (of == null) {
            return 0;
        }
        int code = 1;
        for (int at = 0; at < of.length; at++) {
            code = 31 * code + of[at];
        }
        return code;
    }

    public static String toString(int[] of) {
        if (of == null) {
            return "null";
        }
        StringBuilder made = new StringBuilder("[");
        for (int at = 0; at < of.length; at++) {
            made.append(at > 0 ? ", " : "").append(of[at]);
        }
        return made.append("]").toString();
    }

    public static void fill(int[] of, int with) {
        fill(of, 0, of.length, with);
    }

    public static void fill(int[] of, int from, int to, int with) {
        check(of.length, from, to);
        for (int at = from; at < to; at++) {
            of[at] = with;
        }
    }

    public static int[] copyOf(int[] of, int length) {
        int[] made = new int[length];
        System.arraycopy(of, 0, made, 0, Math.min(of.length, length));
        return made;
    }

    public static int[] copyOfRange(int[] of, int from, int to) {
        if (from > to) {
            throw new IllegalArgumentException(from + " > " + to);
        }
        if (from < 0 || from > of.length) {
            throw new ArrayIndexOutOfBoundsException(from);
        }
        int[] made = new int[to - from];
        System.arraycopy(of, from, made, 0, Math.min(of.length, to) - from);
        return made;
    }

    public static void sort(int[] of) {
        sort(of, 0, of.length);
    }

    public static void sort(int[] of, int from, int to) {
        check(of.length, from, to);
        for (int step = firstStep(to - from); step > 0; step = nextStep(step)) {
            for (int at = from + step; at < to; at++) {
                int held = of[at];
                int place = at;
                while (place >= from + step && of[place - step] > held) {
                    of[place] = of[place - step];
                    place -= step;
                }
                of[place] = held;
            }
        }
    }

    public static int binarySearch(int[] of, int key) {
        return search(of, 0, of.length, key);
    }

    public static int binarySearch(int[] of, int from, int to, int key) {
        check(of.length, from, to);
        return search(of, from, to, key);
    }

    private static int search(int[] of, int from, int to, int key) {
        int low = from;
        int high = to - 1;
        while (low <= high) {
            int middle = low + high >>> 1;
            if (of[middle] == key) {
                return middle;
            }
            if (of[middle] < key) {
                low = middle + 1;
            } else {
                high = middle - 1;
            }
        }
        return -(low + 1);
    }

    // long

    public static boolean equals(long[] one, long[] other) {
        if (one == other) {
            return true;
        }
        if (one == null || other == null || one.length != other.length) {
            return false;
        }
        for (int at = 0; at < one.length; at++) {
            if (one[at] != other[at]) {
                return false;
            }
        }
        return true;
    }

    public static int hashCode(long[] of) {
        if (of == null) {
            return 0;
        }
        int code = 1;
        for (int at = 0; at < of.length; at++) {
            code = 31 * code + (int) (of[at] ^ of[at] >>> 32);
        }
        return code;
    }

    public static String toString(long[] of) {
        if (of == null) {
            return "null";
        }
        StringBuilder made = new StringBuilder("[");
        for (int at = 0; at < of.length; at++) {
            made.append(at > 0 ? ", " : "").append(of[at]);
        }
        return made.append("]").toString();
    }

    public static void fill(long[] of, long with) {
        fill(of, 0, of.length, with);
    }

    public static void fill(long[] of, int from, int to, long with) {
        check(of.length, from, to);
        for (int at = from; at < to; at++) {
            of[at] = with;
        }
    }

    public static long[] copyOf(long[] of, int length) {
        long[] made = new long[length];
        System.arraycopy(of, 0, made, 0, Math.min(of.length, length));
        return made;
    }

    public static long[] copyOfRange(long[] of, int from, int to) {
        if (from > to) {
            throw new IllegalArgumentException(from + " > " + to);
        }
        if (from < 0 || from > of.length) {
            throw new ArrayIndexOutOfBoundsException(from);
        }
        long[] made = new long[to - from];
        System.arraycopy(of, from, made, 0, Math.min(of.length, to) - from);
        return made;
    }

    public static void sort(long[] of) {
        sort(of, 0, of.length);
    }

    public static void sort(long[] of, int from, int to) {
        check(of.length, from, to);
        for (int step = firstStep(to - from); step > 0; step = nextStep(step)) {
            for (int at = from + step; at < to; at++) {
                long held = of[at];
                int place = at;
                while (place >= from + step && of[place - step] > held) {
                    of[place] = of[place - step];
                    place -= step;
                }
                of[place] = held;
            }
        }
    }

    public static int binarySearch(long[] of, long key) {
        return search(of, 0, of.length, key);
    }

    public static int binarySearch(long[] of, int from, int to, long key) {
        check(of.length, from, to);
        return search(of, from, to, key);
    }

    private static int search(long[] of, int from, int to, long key) {
        int low = from;
        int high = to - 1;
        while (low <= high) {
            int middle = low + high >>> 1;
            if (of[middle] == key) {
                return middle;
            }
            if (of[middle] < key) {
                low = middle + 1;
            } else {
                high = middle - 1;
            }
        }
        return -(low + 1);
    }

    // char

    public static boolean equals(char[] one, char[] other) {
        if (one == other) {
            return true;
        }
        if (one == null || other == null || one.length != other.length) {
            return false;
        }
        for (int at = 0; at < one.length; at++) {
            if (one[at] != other[at]) {
                return false;
            }
        }
        return true;
    }

    public static int hashCode(char[] of) {
        if (of == null) {
            return 0;
        }
        int code = 1;
        for (int at = 0; at < of.length; at++) {
            code = 31 * code + of[at];
        }
        return code;
    }

    public static String toString(char[] of) {
        if (of == null) {
            return "null";
        }
        StringBuilder made = new StringBuilder("[");
        for (int at = 0; at < of.length; at++) {
            made.append(at > 0 ? ", " : "").append(of[at]);
        }
        return made.append("]").toString();
    }

    public static void fill(char[] of, char with) {
        fill(of, 0, of.length, with);
    }

    public static void fill(char[] of, int from, int to, char with) {
        check(of.length, from, to);
        for (int at = from; at < to; at++) {
            of[at] = with;
        }
    }

    public static char[] copyOf(char[] of, int length) {
        char[] made = new char[length];
        System.arraycopy(of, 0, made, 0, Math.min(of.length, length));
        return made;
    }

    public static char[] copyOfRange(char[] of, int from, int to) {
        if (from > to) {
            throw new IllegalArgumentException(from + " > " + to);
        }
        if (from < 0 || from > of.length) {
            throw new ArrayIndexOutOfBoundsException(from);
        }
        char[] made = new char[to - from];
        System.arraycopy(of, from, made, 0, Math.min(of.length, to) - from);
        return made;
    }

    public static void sort(char[] of) {
        sort(of, 0, of.length);
    }

    public static void sort(char[] of, int from, int to) {
        check(of.length, from, to);
        for (int step = firstStep(to - from); step > 0; step = nextStep(step)) {
            for (int at = from + step; at < to; at++) {
                char held = of[at];
                int place = at;
                while (place >= from + step && of[place - step] > held) {
                    of[place] = of[place - step];
                    place -= step;
                }
                of[place] = held;
            }
        }
    }

    public static int binarySearch(char[] of, char key) {
        return search(of, 0, of.length, key);
    }

    public static int binarySearch(char[] of, int from, int to, char key) {
        check(of.length, from, to);
        return search(of, from, to, key);
    }

    private static int search(char[] of, int from, int to, char key) {
        int low = from;
        int high = to - 1;
        while (low <= high) {
            int middle = low + high >>> 1;
            if (of[middle] == key) {
                return middle;
            }
            if (of[middle] < key) {
                low = middle + 1;
            } else {
                high = middle - 1;
            }
        }
        return -(low + 1);
    }

    // boolean

    public static boolean equals(boolean[] one, boolean[] other) {
        if (one == other) {
            return true;
        }
        if (one == null || other == null || one.length != other.length) {
            return false;
        }
        for (int at = 0; at < one.length; at++) {
            if (one[at] != other[at]) {
                return false;
            }
        }
        return true;
    }

    public static int hashCode(boolean[] of) {
        if (of == null) {
            return 0;
        }
        int code = 1;
        for (int at = 0; at < of.length; at++) {
            code = 31 * code + (of[at] ? 1231 : 1237);
        }
        return code;
    }

    public static String toString(boolean[] of) {
        if (of == null) {
            return "null";
        }
        StringBuilder made = new StringBuilder("[");
        for (int at = 0; at < of.length; at++) {
            made.append(at > 0 ? ", " : "").append(of[at]);
        }
        return made.append("]").toString();
    }

    public static void fill(boolean[] of, boolean with) {
        fill(of, 0, of.length, with);
    }

    public static void fill(boolean[] of, int from, int to, boolean with) {
        check(of.length, from, to);
        for (int at = from; at < to; at++) {
            of[at] = with;
        }
    }

    public static boolean[] copyOf(boolean[] of, int length) {
        boolean[] made = new boolean[length];
        System.arraycopy(of, 0, made, 0, Math.min(of.length, length));
        return made;
    }

    public static boolean[] copyOfRange(boolean[] of, int from, int to) {
        if (from > to) {
            throw new IllegalArgumentException(from + " > " + to);
        }
        if (from < 0 || from > of.length) {
            throw new ArrayIndexOutOfBoundsException(from);
        }
        boolean[] made = new boolean[to - from];
        System.arraycopy(of, from, made, 0, Math.min(of.length, to) - from);
        return made;
    }
}
