package java.util;

import java.io.Serializable;
import more.Known;

/** A map of constants, by their numbers. Its walks see what changes before them. */
public class EnumMap<K extends Enum<K>, V> extends AbstractMap<K, V> implements Serializable, Cloneable {
    private final Object[] all;
    private final boolean[] has;
    private final Object[] held;
    private int size;
    private Set<Map.Entry<K, V>> entries;

    private EnumMap(Object[] all) {
        this.all = all;
        has = new boolean[all.length];
        held = new Object[all.length];
    }

    public EnumMap(Class<K> kind) {
        this(Known.values(kind.getName()));
    }

    public EnumMap(EnumMap<K, ? extends V> of) {
        this(of.all);
        putAll(of);
    }

    public EnumMap(Map<K, ? extends V> of) {
        this(constants(of));
        putAll(of);
    }

    private static Object[] constants(Map<?, ?> of) {
        if (of instanceof EnumMap) {
            return ((EnumMap<?, ?>) of).all;
        }
        if (of.isEmpty()) {
            throw new IllegalArgumentException("Specified map is empty");
        }
        return Known.values(((Enum<?>) of.keySet().iterator().next()).getDeclaringClass().getName());
    }

    /** The number of a key that is there, or -1. */
    private int place(Object key) {
        if (!(key instanceof Enum)) {
            return -1;
        }
        int at = ((Enum<?>) key).ordinal();
        return at < all.length && all[at] == key && has[at] ? at : -1;
    }

    private V value(int at) {
        return (V) held[at];
    }

    private V set(int at, V to) {
        V old = value(at);
        held[at] = to;
        if (!has[at]) {
            has[at] = true;
            size++;
        }
        return old;
    }

    private V cut(int at) {
        V old = value(at);
        held[at] = null;
        if (has[at]) {
            has[at] = false;
            size--;
        }
        return old;
    }

    @Override
    public int size() {
        return size;
    }

    @Override
    public boolean containsKey(Object key) {
        return place(key) >= 0;
    }

    @Override
    public boolean containsValue(Object value) {
        for (int at = 0; at < all.length; at++) {
            if (has[at] && Objects.equals(value, held[at])) {
                return true;
            }
        }
        return false;
    }

    @Override
    public V get(Object key) {
        int at = place(key);
        return at < 0 ? null : value(at);
    }

    @Override
    public V put(K key, V value) {
        Class<?> given = key.getClass();
        int at = key.ordinal();
        if (at >= all.length || all[at] != key) {
            throw new ClassCastException(given + " has no key here");
        }
        return set(at, value);
    }

    @Override
    public V remove(Object key) {
        int at = place(key);
        return at < 0 ? null : cut(at);
    }

    @Override
    public void clear() {
        for (int at = 0; at < all.length; at++) {
            cut(at);
        }
    }

    @Override
    public Set<Map.Entry<K, V>> entrySet() {
        if (entries == null) {
            entries = new Entries();
        }
        return entries;
    }

    @Override
    public EnumMap<K, V> clone() {
        return new EnumMap<>(this);
    }

    private final class Entries extends AbstractSet<Map.Entry<K, V>> {
        /** The number of a key that has the value of an entry, or -1. */
        private int place(Object of) {
            if (!(of instanceof Map.Entry)) {
                return -1;
            }
            int at = EnumMap.this.place(((Map.Entry<?, ?>) of).getKey());
            return at >= 0 && Objects.equals(held[at], ((Map.Entry<?, ?>) of).getValue()) ? at : -1;
        }

        @Override
        public Iterator<Map.Entry<K, V>> iterator() {
            return new Walk();
        }

        @Override
        public int size() {
            return size;
        }

        @Override
        public boolean contains(Object sought) {
            return place(sought) >= 0;
        }

        @Override
        public boolean remove(Object sought) {
            int at = place(sought);
            if (at < 0) {
                return false;
            }
            cut(at);
            return true;
        }

        @Override
        public void clear() {
            EnumMap.this.clear();
        }
    }

    private final class Walk implements Iterator<Map.Entry<K, V>> {
        private int at;
        private Entry last;

        @Override
        public boolean hasNext() {
            while (at < all.length && !has[at]) {
                at++;
            }
            return at < all.length;
        }

        @Override
        public Map.Entry<K, V> next() {
            if (!hasNext()) {
                throw new NoSuchElementException();
            }
            last = new Entry(at++);
            return last;
        }

        @Override
        public void remove() {
            if (last == null) {
                throw new IllegalStateException();
            }
            cut(last.at);
            last.at = -1;
            last = null;
        }
    }

    private final class Entry implements Map.Entry<K, V> {
        /** The number of its key; -1 where its walk removed it. */
        private int at;

        Entry(int at) {
            this.at = at;
        }

        private void check() {
            if (at < 0) {
                throw new IllegalStateException("Entry was removed");
            }
        }

        @Override
        public K getKey() {
            check();
            return (K) all[at];
        }

        @Override
        public V getValue() {
            check();
            return value(at);
        }

        @Override
        public V setValue(V to) {
            check();
            return set(at, to);
        }

        @Override
        public boolean equals(Object other) {
            if (at < 0 || !(other instanceof Map.Entry)) {
                return other == this;
            }
            Map.Entry<?, ?> entry = (Map.Entry<?, ?>) other;
            return entry.getKey() == all[at] && Objects.equals(held[at], entry.getValue());
        }

        @Override
        public int hashCode() {
            return at < 0 ? super.hashCode() : all[at].hashCode() ^ Objects.hashCode(held[at]);
        }

        @Override
        public String toString() {
            return at < 0 ? super.toString() : all[at] + "=" + held[at];
        }
    }
}
