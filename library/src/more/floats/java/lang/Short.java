package more.floats.java.lang;

/** Members of java.lang.Short that have floats. */
public final class Short {
    private Short() {
    }

    public static double doubleValue(java.lang.Short of) {
        return of.shortValue();
    }

    public static float floatValue(java.lang.Short of) {
        return of.shortValue();
    }
}
