package more.floats.java.lang;

/** Members of java.lang.StringBuffer that have floats. */
public final class StringBuffer {
    private StringBuffer() {
    }

    public static java.lang.StringBuffer append(java.lang.StringBuffer to, double of) {
        return to.append(java.lang.Double.toString(of));
    }

    public static java.lang.StringBuffer insert(java.lang.StringBuffer to, int at, double of) {
        return to.insert(at, java.lang.Double.toString(of));
    }

    public static java.lang.StringBuffer append(java.lang.StringBuffer to, float of) {
        return to.append(java.lang.Float.toString(of));
    }

    public static java.lang.StringBuffer insert(java.lang.StringBuffer to, int at, float of) {
        return to.insert(at, java.lang.Float.toString(of));
    }
}
