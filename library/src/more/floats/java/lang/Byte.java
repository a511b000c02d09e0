package more.floats.java.lang;

/** Members of java.lang.Byte that have floats. */
public final class Byte {
    private Byte() {
    }

    public static double doubleValue(java.lang.Byte of) {
        return of.byteValue();
    }

    public static float floatValue(java.lang.Byte of) {
        return of.byteValue();
    }
}
