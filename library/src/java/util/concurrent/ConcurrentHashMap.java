package java.util.concurrent;

import java.util.Map;

/** There is one thread; null is no key and no value. */
public class ConcurrentHashMap<K, V> extends more.java.util.HashMap<K, V> implements ConcurrentMap<K, V> {
    public ConcurrentHashMap() {
    }

    public ConcurrentHashMap(int capacity) {
        super(capacity);
    }

    public ConcurrentHashMap(Map<? extends K, ? extends V> of) {
        putAll(of);
    }

    @Override
    public V get(Object key) {
        return super.get(some(key));
    }

    @Override
    public V put(K key, V value) {
        some(key);
        some(value);
        return super.put(key, value);
    }

    @Override
    public void putAll(Map<? extends K, ? extends V> others) {
        for (Map.Entry<? extends K, ? extends V> entry : others.entrySet()) {
            put(entry.getKey(), entry.getValue());
        }
    }

    private static <T> T some(T of) {
        if (of == null) {
            throw new NullPointerException();
        }
        return of;
    }
}
