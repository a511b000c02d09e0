package more.floats.java.lang;

/** Members of java.lang.Integer that have floats. */
public final class Integer {
    private Integer() {
    }

    public static double doubleValue(java.lang.Integer of) {
        return of.intValue();
    }

    public static float floatValue(java.lang.Integer of) {
        return of.intValue();
    }
}
