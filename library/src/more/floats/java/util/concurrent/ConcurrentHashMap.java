package more.floats.java.util.concurrent;

/** The constructor of java.util.concurrent.ConcurrentHashMap with a float. */
public final class ConcurrentHashMap {
    private ConcurrentHashMap() {
    }

    public static java.util.concurrent.ConcurrentHashMap make(java.util.concurrent.ConcurrentHashMap a, java.util.concurrent.ConcurrentHashMap b, int capacity, float load) {
        if (!(load > 0)) {
            throw new IllegalArgumentException("Illegal load factor: " + load);
        }
        return new java.util.concurrent.ConcurrentHashMap(capacity);
    }

    public static java.util.concurrent.ConcurrentHashMap make(java.util.concurrent.ConcurrentHashMap a, java.util.concurrent.ConcurrentHashMap b, int capacity, float load, int threads) {
        return new java.util.concurrent.ConcurrentHashMap(capacity);
    }
}
