package java.util;

public class LinkedHashMap<K, V> extends more.java.util.LinkedMap<K, V> {
    public LinkedHashMap() {
    }

    public LinkedHashMap(int capacity) {
        super(capacity, false);
    }

    public LinkedHashMap(Map<? extends K, ? extends V> of) {
        putAll(of);
    }

    @Override
    protected boolean removesEldest(Map.Entry<K, V> eldest) {
        return removeEldestEntry(eldest);
    }

    protected boolean removeEldestEntry(Map.Entry<K, V> eldest) {
        return false;
    }

    @Override
    public Object clone() {
        return new LinkedHashMap<>(this);
    }
}
