package more.floats.java.util;

/** The constructor of java.util.HashSet with a float. */
public final class HashSet {
    private HashSet() {
    }

    public static java.util.HashSet make(java.util.HashSet a, java.util.HashSet b, int capacity, float load) {
        if (!(load > 0)) {
            throw new IllegalArgumentException("Illegal load factor: " + load);
        }
        return new java.util.HashSet(capacity);
    }
}
