package more.floats.java.lang.reflect;

/** What java.lang.reflect.Array does with arrays of floats, of arrays of numbers, and of Numbers. */
public final class Array {
    private Array() {
    }

    public static Object newInstance(Class<?> kind, int length) {
        switch (kind.getName()) {
            case "double":
                return new double[length];
            case "[D":
                return new double[length][];
            case "[[D":
                return new double[length][][];
            case "float":
                return new float[length];
            case "[F":
                return new float[length][];
            case "[[F":
                return new float[length][][];
            case "long":
                return new long[length];
            case "[J":
                return new long[length][];
            case "int":
                return new int[length];
            case "[I":
                return new int[length][];
            case "java.lang.Number":
                return new Number[length];
            default:
                return java.lang.reflect.Array.newInstance(kind, length);
        }
    }

    public static Object newInstance(Class<?> kind, int[] lengths) {
        if (lengths.length == 1) {
            return newInstance(kind, lengths[0]);
        }
        String name = kind.getName();
        if (lengths.length == 2 && name.equals("double")) {
            return new double[lengths[0]][lengths[1]];
        }
        if (lengths.length == 3 && name.equals("double")) {
            return new double[lengths[0]][lengths[1]][lengths[2]];
        }
        if (lengths.length == 2 && name.equals("float")) {
            return new float[lengths[0]][lengths[1]];
        }
        throw new NoSuchMethodError("java.lang.reflect.Array.newInstance of more dimensions");
    }

    public static int getLength(Object of) {
        return of instanceof double[] ? ((double[]) of).length : of instanceof float[] ? ((float[]) of).length : java.lang.reflect.Array.getLength(of);
    }

    public static Object get(Object of, int at) {
        if (of instanceof double[]) {
            return Double.valueOf(((double[]) of)[at]);
        }
        return of instanceof float[] ? Float.valueOf(((float[]) of)[at]) : java.lang.reflect.Array.get(of, at);
    }

    public static double getDouble(Object of, int at) {
        return of instanceof double[] ? ((double[]) of)[at] : of instanceof float[] ? ((float[]) of)[at] : whole(of, at);
    }

    public static float getFloat(Object of, int at) {
        return of instanceof float[] ? ((float[]) of)[at] : whole(of, at);
    }

    private static long whole(Object of, int at) {
        if (of instanceof long[]) {
            return ((long[]) of)[at];
        }
        if (of instanceof int[]) {
            return ((int[]) of)[at];
        }
        throw of == null ? new NullPointerException() : new IllegalArgumentException("Argument is not an array of primitive type");
    }

    public static void set(Object of, int at, Object to) {
        if (of instanceof double[]) {
            ((double[]) of)[at] = to instanceof Double ? ((Double) to).doubleValue() : to instanceof Float ? ((Float) to).floatValue() : whole(to);
        } else if (of instanceof float[]) {
            ((float[]) of)[at] = to instanceof Float ? ((Float) to).floatValue() : whole(to);
        } else {
            java.lang.reflect.Array.set(of, at, to);
        }
    }

    private static long whole(Object of) {
        if (of instanceof Character) {
            return ((Character) of).charValue();
        }
        if (of instanceof Long || of instanceof Integer || of instanceof Short || of instanceof Byte) {
            return ((Number) of).longValue();
        }
        throw of == null ? new NullPointerException() : new IllegalArgumentException("argument type mismatch");
    }

    public static void setDouble(Object of, int at, double to) {
        set(of, at, Double.valueOf(to));
    }

    public static void setFloat(Object of, int at, float to) {
        set(of, at, Float.valueOf(to));
    }
}
