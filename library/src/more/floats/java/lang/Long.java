package more.floats.java.lang;

/** Members of java.lang.Long that have floats. */
public final class Long {
    private Long() {
    }

    public static double doubleValue(java.lang.Long of) {
        return of.longValue();
    }

    public static float floatValue(java.lang.Long of) {
        return of.longValue();
    }
}
