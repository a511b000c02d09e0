package forms;

/** Methods that only floats tell apart. */
public final class Which {
    private Which() {
    }

    public static String of(int a) {
        return "int";
    }

    public static String of(long a) {
        return "long";
    }

    public static String of(float a) {
        return "float";
    }

    public static String of(double a) {
        return "double";
    }

    public static String of(Object a) {
        return "object";
    }

    public static String of(long[] a) {
        return "longs";
    }

    public static String of(float[] a) {
        return "floats";
    }

    public static String of(double[] a) {
        return "doubles";
    }

    public static String of(double[][] a) {
        return "doubles2";
    }

    public static String of(Number[] a) {
        return "numbers";
    }

    public static String of(Object[] a) {
        return "objects";
    }

    public static strictfp double sum(double... all) {
        double sum = 0;
        for (double one : all) {
            sum += one;
        }
        return sum;
    }

    public static <T> Object copy(T[] of) {
        return of.clone();
    }

    public static <T> T same(T of) {
        return of;
    }
}
