package java.util;

import java.io.Serializable;

public abstract class AbstractMap<K, V> implements Map<K, V> {
    transient Set<K> keySet;
    transient Collection<V> values;

    protected AbstractMap() {
    }

    public abstract Set<Map.Entry<K, V>> entrySet();

    private Map.Entry<K, V> entry(Object key) {
        for (Map.Entry<K, V> entry : entrySet()) {
            if (key == null ? entry.getKey() == null : key.equals(entry.getKey())) {
                return entry;
            }
        }
        return null;
    }

    public int size() {
        return entrySet().size();
    }

    public boolean isEmpty() {
        return size() == 0;
    }

    public boolean containsKey(Object key) {
        return entry(key) != null;
    }

    public boolean containsValue(Object value) {
        for (Map.Entry<K, V> entry : entrySet()) {
            if (value == null ? entry.getValue() == null : value.equals(entry.getValue())) {
                return true;
            }
        }
        return false;
    }

    public V get(Object key) {
        Map.Entry<K, V> found = entry(key);
        return found == null ? null : found.getValue();
    }

    public V put(K key, V value) {
        throw new UnsupportedOperationException();
    }

    public V remove(Object key) {
        Iterator<Map.Entry<K, V>> walk = entrySet().iterator();
        while (walk.hasNext()) {
            Map.Entry<K, V> entry = walk.next();
            if (key == null ? entry.getKey() == null : key.equals(entry.getKey())) {
                V old = entry.getValue();
                walk.remove();
                return old;
            }
        }
        return null;
    }

    public void putAll(Map<? extends K, ? extends V> others) {
        for (Map.Entry<? extends K, ? extends V> entry : others.entrySet()) {
            put(entry.getKey(), entry.getValue());
        }
    }

    public void clear() {
        entrySet().clear();
    }

    public Set<K> keySet() {
        if (keySet == null) {
            keySet = new Keys();
        }
        return keySet;
    }

    public Collection<V> values() {
        if (values == null) {
            values = new Values();
        }
        return values;
    }

    @Override
    public boolean equals(Object other) {
        if (other == this) {
            return true;
        }
        if (!(other instanceof Map) || ((Map<?, ?>) other).size() != size()) {
            return false;
        }
        Map<?, ?> map = (Map<?, ?>) other;
        try {
            for (Map.Entry<K, V> entry : entrySet()) {
                V value = entry.getValue();
                Object same = map.get(entry.getKey());
                if (value == null ? same != null || !map.containsKey(entry.getKey()) : !value.equals(same)) {
                    return false;
                }
            }
        } catch (ClassCastException | NullPointerException unlike) {
            return false;
        }
        return true;
    }

    @Override
    public int hashCode() {
        int code = 0;
        for (Map.Entry<K, V> entry : entrySet()) {
            code += entry.hashCode();
        }
        return code;
    }

    @Override
    public String toString() {
        StringBuilder made = new StringBuilder("{");
        Iterator<Map.Entry<K, V>> walk = entrySet().iterator();
        while (walk.hasNext()) {
            Map.Entry<K, V> entry = walk.next();
            made.append(entry.getKey() == this ? "(this Map)" : String.valueOf(entry.getKey())).append("=");
            made.append(entry.getValue() == this ? "(this Map)" : String.valueOf(entry.getValue()));
            made.append(walk.hasNext() ? ", " : "");
        }
        return made.append("}").toString();
    }

    private final class Keys extends AbstractSet<K> {
        @Override
        public Iterator<K> iterator() {
            Iterator<Map.Entry<K, V>> walk = entrySet().iterator();
            return new Iterator<K>() {
                @Override
                public boolean hasNext() {
                    return walk.hasNext();
                }

                @Override
                public K next() {
                    return walk.next().getKey();
                }

                @Override
                public void remove() {
                    walk.remove();
                }
            };
        }

        @Override
        public int size() {
            return AbstractMap.this.size();
        }

        @Override
        public boolean contains(Object key) {
            return containsKey(key);
        }

        @Override
        public void clear() {
            AbstractMap.this.clear();
        }
    }

    private final class Values extends AbstractCollection<V> {
        @Override
        public Iterator<V> iterator() {
            Iterator<Map.Entry<K, V>> walk = entrySet().iterator();
            return new Iterator<V>() {
                @Override
                public boolean hasNext() {
                    return walk.hasNext();
                }

                @Override
                public V next() {
                    return walk.next().getValue();
                }

                @Override
                public void remove() {
                    walk.remove();
                }
            };
        }

        @Override
        public int size() {
            return AbstractMap.this.size();
        }

        @Override
        public boolean contains(Object value) {
            return containsValue(value);
        }

        @Override
        public void clear() {
            AbstractMap.this.clear();
        }
    }

    public static class SimpleEntry<K, V> implements Map.Entry<K, V>, Serializable {
        private final K key;
        private V value;

        public SimpleEntry(K key, V value) {
            this.key = key;
            this.value = value;
        }

        public SimpleEntry(Map.Entry<? extends K, ? extends V> of) {
            this(of.getKey(), of.getValue());
        }

        public K getKey() {
            return key;
        }

        public V getValue() {
            return value;
        }

        public V setValue(V to) {
            V old = value;
            value = to;
            return old;
        }

        @Override
        public boolean equals(Object other) {
            return other instanceof Map.Entry && isEntry(this, (Map.Entry<?, ?>) other);
        }

        @Override
        public int hashCode() {
            return (key == null ? 0 : key.hashCode()) ^ (value == null ? 0 : value.hashCode());
        }

        @Override
        public String toString() {
            return key + "=" + value;
        }
    }

    public static class SimpleImmutableEntry<K, V> extends Unchanging<K, V> {
        public SimpleImmutableEntry(K key, V value) {
            super(key, value);
        }

        public SimpleImmutableEntry(Map.Entry<? extends K, ? extends V> of) {
            super(of.getKey(), of.getValue());
        }
    }

    private static class Unchanging<K, V> implements Map.Entry<K, V>, Serializable {
        private final K key;
        private final V value;

        Unchanging(K key, V value) {
            this.key = key;
            this.value = value;
        }

        public K getKey() {
            return key;
        }

        public V getValue() {
            return value;
        }

        public V setValue(V to) {
            throw new UnsupportedOperationException();
        }

        @Override
        public boolean equals(Object other) {
            return other instanceof Map.Entry && isEntry(this, (Map.Entry<?, ?>) other);
        }

        @Override
        public int hashCode() {
            return (key == null ? 0 : key.hashCode()) ^ (value == null ? 0 : value.hashCode());
        }

        @Override
        public String toString() {
            return key + "=" + value;
        }
    }

    private static boolean isEntry(Map.Entry<?, ?> of, Map.Entry<?, ?> other) {
        Object key = of.getKey();
        Object value = of.getValue();
        return (key == null ? other.getKey() == null : key.equals(other.getKey()))
            && (value == null ? other.getValue() == null : value.equals(other.getValue()));
    }
}
