package java.util;

import java.util.function.BiConsumer;
import java.util.function.BiFunction;

/** A map in Java's order of one, but for the place of null; no key is cleared. */
public class WeakHashMap<K, V> extends AbstractMap<K, V> implements Map<K, V> {
    private Node<K, V>[] table;
    private int size;
    private int most;
    private int modCount;
    private Set<Map.Entry<K, V>> entries;

    private static final class Node<K, V> extends AbstractMap.SimpleEntry<K, V> {
        private final int hash;
        private Node<K, V> below;

        Node(K key, V value, int hash, Node<K, V> below) {
            super(key, value);
            this.hash = hash;
            this.below = below;
        }
    }

    public WeakHashMap() {
        this(16);
    }

    public WeakHashMap(int capacity) {
        if (capacity < 0) {
            throw new IllegalArgumentException("Illegal Initial Capacity: " + capacity);
        }
        int length = 1;
        while (length < capacity && length < 1 << 30) {
            length <<= 1;
        }
        table = rows(length);
    }

    public WeakHashMap(Map<? extends K, ? extends V> of) {
        this(Math.max(of.size() * 4 / 3 + 1, 16));
        putAll(of);
    }

    private Node<K, V>[] rows(int length) {
        most = length / 4 * 3 + length % 4 * 3 / 4;
        return (Node<K, V>[]) new Node[length];
    }

    private static int hash(Object key) {
        int code = key == null ? 0 : key.hashCode();
        code ^= code >>> 20 ^ code >>> 12;
        return code ^ code >>> 7 ^ code >>> 4;
    }

    private Node<K, V> node(Object key) {
        int hash = hash(key);
        Node<K, V> node = table[hash & table.length - 1];
        while (node != null && !(node.hash == hash && (key == null ? node.getKey() == null : key.equals(node.getKey())))) {
            node = node.below;
        }
        return node;
    }

    @Override
    public int size() {
        return size;
    }

    @Override
    public boolean containsKey(Object key) {
        return node(key) != null;
    }

    @Override
    public V get(Object key) {
        Node<K, V> found = node(key);
        return found == null ? null : found.getValue();
    }

    @Override
    public V put(K key, V value) {
        Node<K, V> found = node(key);
        if (found != null) {
            return found.setValue(value);
        }
        modCount++;
        int hash = hash(key);
        int at = hash & table.length - 1;
        table[at] = new Node<>(key, value, hash, table[at]);
        if (++size >= most) {
            grow(table.length * 2);
        }
        return null;
    }

    private void grow(int length) {
        Node<K, V>[] old = table;
        table = rows(length);
        for (int row = 0; row < old.length; row++) {
            Node<K, V> node = old[row];
            while (node != null) {
                Node<K, V> below = node.below;
                int at = node.hash & length - 1;
                node.below = table[at];
                table[at] = node;
                node = below;
            }
        }
    }

    @Override
    public void putAll(Map<? extends K, ? extends V> others) {
        int count = others.size();
        if (count > most) {
            int length = table.length;
            while (length < count * 4 / 3 + 1) {
                length <<= 1;
            }
            if (length > table.length) {
                grow(length);
            }
        }
        for (Map.Entry<? extends K, ? extends V> entry : others.entrySet()) {
            put(entry.getKey(), entry.getValue());
        }
    }

    @Override
    public V remove(Object key) {
        Node<K, V> found = node(key);
        if (found == null) {
            return null;
        }
        cut(found);
        return found.getValue();
    }

    private void cut(Node<K, V> found) {
        int at = found.hash & table.length - 1;
        modCount++;
        size--;
        if (table[at] == found) {
            table[at] = found.below;
            return;
        }
        Node<K, V> node = table[at];
        while (node.below != found) {
            node = node.below;
        }
        node.below = found.below;
    }

    @Override
    public void clear() {
        modCount++;
        size = 0;
        for (int at = 0; at < table.length; at++) {
            table[at] = null;
        }
    }

    // These two go from the first row to the last.

    @Override
    public void forEach(BiConsumer<? super K, ? super V> action) {
        Objects.requireNonNull(action);
        int expected = modCount;
        for (int row = 0; row < table.length; row++) {
            for (Node<K, V> node = table[row]; node != null; node = node.below) {
                action.accept(node.getKey(), node.getValue());
                check(expected);
            }
        }
    }

    @Override
    public void replaceAll(BiFunction<? super K, ? super V, ? extends V> function) {
        Objects.requireNonNull(function);
        int expected = modCount;
        for (int row = 0; row < table.length; row++) {
            for (Node<K, V> node = table[row]; node != null; node = node.below) {
                node.setValue(function.apply(node.getKey(), node.getValue()));
                check(expected);
            }
        }
    }

    private void check(int expected) {
        if (modCount != expected) {
            throw new ConcurrentModificationException();
        }
    }

    @Override
    public Set<Map.Entry<K, V>> entrySet() {
        if (entries == null) {
            entries = new Entries();
        }
        return entries;
    }

    private final class Entries extends AbstractSet<Map.Entry<K, V>> {
        @Override
        public Iterator<Map.Entry<K, V>> iterator() {
            return new Walk();
        }

        @Override
        public int size() {
            return size;
        }

        @Override
        public boolean contains(Object other) {
            Node<K, V> found = other instanceof Map.Entry ? node(((Map.Entry<?, ?>) other).getKey()) : null;
            return found != null && found.equals(other);
        }

        @Override
        public boolean remove(Object other) {
            Node<K, V> found = other instanceof Map.Entry ? node(((Map.Entry<?, ?>) other).getKey()) : null;
            boolean has = found != null && found.equals(other);
            if (has) {
                cut(found);
            }
            return has;
        }

        @Override
        public void clear() {
            WeakHashMap.this.clear();
        }
    }

    /** From the last row to the first. */
    private final class Walk implements Iterator<Map.Entry<K, V>> {
        private int row = size == 0 ? 0 : table.length;
        private Node<K, V> ahead;
        private Node<K, V> current;
        private int expected = modCount;

        @Override
        public boolean hasNext() {
            while (ahead == null && row > 0) {
                ahead = table[--row];
            }
            return ahead != null;
        }

        @Override
        public Map.Entry<K, V> next() {
            check(expected);
            if (!hasNext()) {
                throw new NoSuchElementException();
            }
            current = ahead;
            ahead = ahead.below;
            return current;
        }

        @Override
        public void remove() {
            if (current == null) {
                throw new IllegalStateException();
            }
            check(expected);
            WeakHashMap.this.remove(current.getKey());
            expected = modCount;
            current = null;
        }
    }
}
