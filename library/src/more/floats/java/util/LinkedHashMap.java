package more.floats.java.util;

/** The constructor of java.util.LinkedHashMap with a float. */
public final class LinkedHashMap {
    private LinkedHashMap() {
    }

    public static java.util.LinkedHashMap make(java.util.LinkedHashMap a, java.util.LinkedHashMap b, int capacity, float load) {
        if (!(load > 0)) {
            throw new IllegalArgumentException("Illegal load factor: " + load);
        }
        return new java.util.LinkedHashMap(capacity);
    }
}
