package more.floats.java.util;

/** Members of java.util.Arrays that have floats, or may come to arrays of them. */
public final class Arrays {
    private Arrays() {
    }

    private static void check(int length, int from, int to) {
        if (from > to) {
            throw new IllegalArgumentException("fromIndex(" + from + ") > toIndex(" + to + ")");
        }
        if (from < 0 || to > length) {
            throw new ArrayIndexOutOfBoundsException(from < 0 ? from : to);
        }
    }

    public static boolean equals(double[] one, double[] other) {
        if (one == other) {
            return true;
        }
        if (one == null || other == null || one.length != other.length) {
            return false;
        }
        for (int at = 0; at < one.length; at++) {
            if (Double.compare(one[at], other[at]) != 0) {
                return false;
            }
        }
        return true;
    }

    public static int hashCode(double[] of) {
        if (of == null) {
            return 0;
        }
        int code = 1;
        for (int at = 0; at < of.length; at++) {
            code = 31 * code + Double.hashCode(of[at]);
        }
        return code;
    }

    public static String toString(double[] of) {
        if (of == null) {
            return "null";
        }
        StringBuilder made = new StringBuilder("[");
        for (int at = 0; at < of.length; at++) {
            made.append(at == 0 ? "" : ", ").append(Double.toString(of[at]));
        }
        return made.append("]").toString();
    }

    public static void fill(double[] of, double with) {
        for (int at = 0; at < of.length; at++) {
            of[at] = with;
        }
    }

    public static void fill(double[] of, int from, int to, double with) {
        check(of.length, from, to);
        for (int at = from; at < to; at++) {
            of[at] = with;
        }
    }

    public static double[] copyOf(double[] of, int length) {
        double[] made = new double[length];
        System.arraycopy(of, 0, made, 0, Math.min(length, of.length));
        return made;
    }

    public static double[] copyOfRange(double[] of, int from, int to) {
        if (from > to) {
            throw new IllegalArgumentException(from + " > " + to);
        }
        double[] made = new double[to - from];
        System.arraycopy(of, from, made, 0, Math.min(to - from, of.length - from));
        return made;
    }

    public static void sort(double[] of) {
        sort(of, 0, of.length);
    }

    public static void sort(double[] of, int from, int to) {
        check(of.length, from, to);
        double[] spare = new double[to - from];
        for (int width = 1; width < to - from; width *= 2) {
            for (int start = from; start < to; start += 2 * width) {
                int middle = Math.min(start + width, to);
                int end = Math.min(start + 2 * width, to);
                int one = start;
                int other = middle;
                for (int at = start; at < end; at++) {
                    spare[at - from] = one < middle && (other >= end || Double.compare(of[one], of[other]) <= 0) ? of[one++] : of[other++];
                }
            }
            System.arraycopy(spare, 0, of, from, to - from);
        }
    }

    public static int binarySearch(double[] of, double key) {
        return binarySearch(of, 0, of.length, key);
    }

    public static int binarySearch(double[] of, int from, int to, double key) {
        int low = from;
        int high = to - 1;
        while (low <= high) {
            int at = low + high >>> 1;
            int compared = Double.compare(of[at], key);
            if (compared == 0) {
                return at;
            }
            if (compared < 0) {
                low = at + 1;
            } else {
                high = at - 1;
            }
        }
        return -low - 1;
    }

    public static boolean equals(float[] one, float[] other) {
        if (one == other) {
            return true;
        }
        if (one == null || other == null || one.length != other.length) {
            return false;
        }
        for (int at = 0; at < one.length; at++) {
            if (Float.compare(one[at], other[at]) != 0) {
                return false;
            }
        }
        return true;
    }

    public static int hashCode(float[] of) {
        if (of == null) {
            return 0;
        }
        int code = 1;
        for (int at = 0; at < of.length; at++) {
            code = 31 * code + Float.hashCode(of[at]);
        }
        return code;
    }

    public static String toString(float[] of) {
        if (of == null) {
            return "null";
        }
        StringBuilder made = new StringBuilder("[");
        for (int at = 0; at < of.length; at++) {
            made.append(at == 0 ? "" : ", ").append(Float.toString(of[at]));
        }
        return made.append("]").toString();
    }

    public static void fill(float[] of, float with) {
        for (int at = 0; at < of.length; at++) {
            of[at] = with;
        }
    }

    public static void fill(float[] of, int from, int to, float with) {
        check(of.length, from, to);
        for (int at = from; at < to; at++) {
            of[at] = with;
        }
    }

    public static float[] copyOf(float[] of, int length) {
        float[] made = new float[length];
        System.arraycopy(of, 0, made, 0, Math.min(length, of.length));
        return made;
    }

    public static float[] copyOfRange(float[] of, int from, int to) {
        if (from > to) {
            throw new IllegalArgumentException(from + " > " + to);
        }
        float[] made = new float[to - from];
        System.arraycopy(of, from, made, 0, Math.min(to - from, of.length - from));
        return made;
    }

    public static void sort(float[] of) {
        sort(of, 0, of.length);
    }

    public static void sort(float[] of, int from, int to) {
        check(of.length, from, to);
        float[] spare = new float[to - from];
        for (int width = 1; width < to - from; width *= 2) {
            for (int start = from; start < to; start += 2 * width) {
                int middle = Math.min(start + width, to);
                int end = Math.min(start + 2 * width, to);
                int one = start;
                int other = middle;
                for (int at = start; at < end; at++) {
                    spare[at - from] = one < middle && (other >= end || Float.compare(of[one], of[other]) <= 0) ? of[one++] : of[other++];
                }
            }
            System.arraycopy(spare, 0, of, from, to - from);
        }
    }

    public static int binarySearch(float[] of, float key) {
        return binarySearch(of, 0, of.length, key);
    }

    public static int binarySearch(float[] of, int from, int to, float key) {
        int low = from;
        int high = to - 1;
        while (low <= high) {
            int at = low + high >>> 1;
            int compared = Float.compare(of[at], key);
            if (compared == 0) {
                return at;
            }
            if (compared < 0) {
                low = at + 1;
            } else {
                high = at - 1;
            }
        }
        return -low - 1;
    }

    private static boolean isOfFloats(Object of) {
        return of instanceof double[] || of instanceof float[];
    }

    private static boolean isSame(Object one, Object other) {
        if (one instanceof Object[] && other instanceof Object[]) {
            return deepEquals((Object[]) one, (Object[]) other);
        }
        if (one instanceof double[] && other instanceof double[]) {
            return equals((double[]) one, (double[]) other);
        }
        if (one instanceof float[] && other instanceof float[]) {
            return equals((float[]) one, (float[]) other);
        }
        return !isOfFloats(one) && !isOfFloats(other) && java.util.Arrays.deepEquals(new Object[] {one}, new Object[] {other});
    }

    public static boolean deepEquals(Object[] one, Object[] other) {
        if (one == other) {
            return true;
        }
        if (one == null || other == null || one.length != other.length) {
            return false;
        }
        for (int at = 0; at < one.length; at++) {
            if (one[at] != other[at] && !isSame(one[at], other[at])) {
                return false;
            }
        }
        return true;
    }

    public static int deepHashCode(Object[] of) {
        if (of == null) {
            return 0;
        }
        int code = 1;
        for (int at = 0; at < of.length; at++) {
            Object next = of[at];
            code = 31 * code + (next instanceof Object[] ? deepHashCode((Object[]) next) : next instanceof double[] ? hashCode((double[]) next)
                : next instanceof float[] ? hashCode((float[]) next) : java.util.Arrays.deepHashCode(new Object[] {next}) - 31);
        }
        return code;
    }

    public static String deepToString(Object[] of) {
        if (of == null) {
            return "null";
        }
        StringBuilder made = new StringBuilder("[");
        for (int at = 0; at < of.length; at++) {
            Object next = of[at];
            made.append(at == 0 ? "" : ", ");
            if (next == of) {
                made.append("[...]");
            } else if (next instanceof Object[]) {
                made.append(deepToString((Object[]) next));
            } else if (next instanceof double[]) {
                made.append(toString((double[]) next));
            } else if (next instanceof float[]) {
                made.append(toString((float[]) next));
            } else {
                String text = java.util.Arrays.deepToString(new Object[] {next});
                made.append(text.substring(1, text.length() - 1));
            }
        }
        return made.append("]").toString();
    }
}
