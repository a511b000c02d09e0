package more.floats.java.util;

/** The constructor of java.util.LinkedHashSet with a float. */
public final class LinkedHashSet {
    private LinkedHashSet() {
    }

    public static java.util.LinkedHashSet make(java.util.LinkedHashSet a, java.util.LinkedHashSet b, int capacity, float load) {
        if (!(load > 0)) {
            throw new IllegalArgumentException("Illegal load factor: " + load);
        }
        return new java.util.LinkedHashSet(capacity);
    }
}
