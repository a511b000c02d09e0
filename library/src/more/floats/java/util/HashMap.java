package more.floats.java.util;

/** The constructor of java.util.HashMap with a float. */
public final class HashMap {
    private HashMap() {
    }

    public static java.util.HashMap make(java.util.HashMap a, java.util.HashMap b, int capacity, float load) {
        if (!(load > 0)) {
            throw new IllegalArgumentException("Illegal load factor: " + load);
        }
        return new java.util.HashMap(capacity);
    }
}
