package more.floats.java.lang;

/** Members of java.lang.StringBuilder that have floats. */
public final class StringBuilder {
    private StringBuilder() {
    }

    public static java.lang.StringBuilder append(java.lang.StringBuilder to, double of) {
        return to.append(java.lang.Double.toString(of));
    }

    public static java.lang.StringBuilder insert(java.lang.StringBuilder to, int at, double of) {
        return to.insert(at, java.lang.Double.toString(of));
    }

    public static java.lang.StringBuilder append(java.lang.StringBuilder to, float of) {
        return to.append(java.lang.Float.toString(of));
    }

    public static java.lang.StringBuilder insert(java.lang.StringBuilder to, int at, float of) {
        return to.insert(at, java.lang.Float.toString(of));
    }
}
