package more.java.util;

import java.util.AbstractCollection;
import java.util.AbstractSet;
import java.util.Collection;
import java.util.ConcurrentModificationException;
import java.util.Iterator;
import java.util.Map;
import java.util.NoSuchElementException;
import java.util.Objects;
import java.util.Set;
import java.util.function.BiConsumer;
import java.util.function.BiFunction;
import java.util.function.Function;

/** java.util.HashMap whole, which is walked in Java's order. */
public class HashMap<K, V> extends java.util.HashMap<K, V> implements more.java.util.Map<K, V> {
    /** How many nodes make a row so long that Java makes the table larger, and how large a table has long rows. */
    private static final int LONG_ROW = 8;
    private static final int LARGE_TABLE = 64;
    /** How many walks may stand still on the order: a change takes as long as what is before them. */
    private static final int MOST_WALKS = 4;
    // What walks read is not private, since a class inside would call a method for it.
    Node<K, V>[] table;
    int modCount;
    /** How many there may be before the table grows; the length of the first one where there is none, or 0 for 16. */
    private int most;
    private int size;
    private Keys keys;
    private Values values;
    private Entries entries;
    /** The nodes in the order of the rows, as it was at a count of changes. */
    Order order;
    private int orderedAt;
    /** How many walks went by rows since the last change, and at which count of changes. */
    private int walked;
    private int walkedAt;
    /** The walks over the order, which count no changes, since there was none. */
    Ahead walks;

    static final class Node<K, V> implements Map.Entry<K, V> {
        final int hash;
        final K key;
        V value;
        Node<K, V> below;
        Node<K, V> before;
        Node<K, V> after;

        Node(int hash, K key, V value, Node<K, V> below) {
            this.hash = hash;
            this.key = key;
            this.value = value;
            this.below = below;
        }

        @Override
        public K getKey() {
            return key;
        }

        @Override
        public V getValue() {
            return value;
        }

        @Override
        public V setValue(V to) {
            V old = value;
            value = to;
            return old;
        }

        @Override
        public boolean equals(Object other) {
            if (other == this) {
                return true;
            }
            if (!(other instanceof Map.Entry)) {
                return false;
            }
            Map.Entry<?, ?> entry = (Map.Entry<?, ?>) other;
            return isSame(key, entry.getKey()) && isSame(value, entry.getValue());
        }

        @Override
        public int hashCode() {
            return (key == null ? 0 : key.hashCode()) ^ (value == null ? 0 : value.hashCode());
        }

        @Override
        public String toString() {
            return key + "=" + value;
        }
    }

    public HashMap() {
    }

    public HashMap(int capacity) {
        if (capacity < 0) {
            throw new IllegalArgumentException("Illegal initial capacity: " + capacity);
        }
        most = lengthFor(capacity);
    }

    public HashMap(Map<? extends K, ? extends V> of) {
        putAll(of);
    }

    private static int lengthFor(int capacity) {
        int length = 1;
        while (length < capacity && length < 1 << 30) {
            length <<= 1;
        }
        return length;
    }

    private static int hash(Object key) {
        int code = key == null ? 0 : key.hashCode();
        return code ^ code >>> 16;
    }

    private static boolean isSame(Object one, Object other) {
        return one == other || one != null && one.equals(other);
    }

    Node<K, V> node(Object key) {
        Node<K, V>[] rows = table;
        if (rows == null) {
            return null;
        }
        int code = key == null ? 0 : key.hashCode();
        int hash = code ^ code >>> 16;
        Node<K, V> node = rows[hash & rows.length - 1];
        while (node != null && (node.hash != hash || node.key != key && (key == null || !key.equals(node.key)))) {
            node = node.below;
        }
        return node;
    }

    @Override
    public int size() {
        return size;
    }

    @Override
    public boolean isEmpty() {
        return size == 0;
    }

    @Override
    public boolean containsKey(Object key) {
        return node(key) != null;
    }

    @Override
    public V get(Object key) {
        Node<K, V> found = node(key);
        return found == null ? null : found.value;
    }

    @Override
    public V getOrDefault(Object key, V other) {
        Node<K, V> found = node(key);
        if (found == null) {
            return other;
        }
        read(found);
        return found.value;
    }

    @Override
    public V put(K key, V value) {
        return put(key, value, false);
    }

    @Override
    public V putIfAbsent(K key, V value) {
        return put(key, value, true);
    }

    private V put(K key, V value, boolean keeps) {
        int code = key == null ? 0 : key.hashCode();
        int hash = code ^ code >>> 16;
        if (table == null) {
            grow();
        }
        Node<K, V>[] rows = table;
        int at = hash & rows.length - 1;
        Node<K, V> node = rows[at];
        Node<K, V> last = null;
        int many = 0;
        while (node != null) {
            if (node.hash == hash && (node.key == key || key != null && key.equals(node.key))) {
                V old = node.value;
                if (!keeps || old == null) {
                    node.value = value;
                }
                touched(node);
                return old;
            }
            last = node;
            node = node.below;
            many++;
        }
        leaveWalks();
        Node<K, V> made = new Node<>(hash, key, value, null);
        if (last == null) {
            rows[at] = made;
        } else {
            last.below = made;
        }
        added(made);
        if (many >= LONG_ROW && rows.length < LARGE_TABLE) {
            grow();
        }
        modCount++;
        if (++size > most) {
            grow();
        }
        inserted();
        return null;
    }

    // Java puts what is computed before what has the same place, and makes room only before it.

    private Node<K, V> nodeWithRoom(Object key) {
        if (table == null || size > most) {
            grow();
        }
        return node(key);
    }

    private void putFirst(K key, V value) {
        leaveWalks();
        int hash = hash(key);
        int at = hash & table.length - 1;
        int many = 0;
        for (Node<K, V> node = table[at]; node != null; node = node.below) {
            many++;
        }
        table[at] = new Node<>(hash, key, value, table[at]);
        added(table[at]);
        if (many >= LONG_ROW - 1 && table.length < LARGE_TABLE) {
            grow();
        }
        modCount++;
        size++;
        inserted();
    }

    private void checkChanges(int expected) {
        if (modCount != expected) {
            throw new ConcurrentModificationException();
        }
    }

    private V putComputed(Node<K, V> found, K key, V value) {
        if (found == null) {
            if (value != null) {
                putFirst(key, value);
            }
        } else if (value == null) {
            cut(found);
        } else {
            found.value = value;
            touched(found);
        }
        return value;
    }

    @Override
    public V computeIfAbsent(K key, Function<? super K, ? extends V> function) {
        Objects.requireNonNull(function);
        Node<K, V> found = nodeWithRoom(key);
        if (found != null && found.value != null) {
            touched(found);
            return found.value;
        }
        int expected = modCount;
        V value = function.apply(key);
        checkChanges(expected);
        return value == null ? null : putComputed(found, key, value);
    }

    @Override
    public V computeIfPresent(K key, BiFunction<? super K, ? super V, ? extends V> function) {
        Objects.requireNonNull(function);
        Node<K, V> found = node(key);
        if (found == null || found.value == null) {
            return null;
        }
        int expected = modCount;
        V value = function.apply(key, found.value);
        checkChanges(expected);
        return putComputed(found, key, value);
    }

    @Override
    public V compute(K key, BiFunction<? super K, ? super V, ? extends V> function) {
        Objects.requireNonNull(function);
        Node<K, V> found = nodeWithRoom(key);
        int expected = modCount;
        V value = function.apply(key, found == null ? null : found.value);
        checkChanges(expected);
        return putComputed(found, key, value);
    }

    @Override
    public V merge(K key, V value, BiFunction<? super V, ? super V, ? extends V> function) {
        Objects.requireNonNull(value);
        Objects.requireNonNull(function);
        Node<K, V> found = nodeWithRoom(key);
        V old = found == null ? null : found.value;
        int expected = modCount;
        V made = old == null ? value : function.apply(old, value);
        checkChanges(expected);
        return putComputed(found, key, made);
    }

    @Override
    public boolean replace(K key, V old, V value) {
        Node<K, V> found = node(key);
        if (found == null || !isSame(found.value, old)) {
            return false;
        }
        found.value = value;
        touched(found);
        return true;
    }

    @Override
    public V replace(K key, V value) {
        Node<K, V> found = node(key);
        if (found == null) {
            return null;
        }
        V old = found.value;
        found.value = value;
        touched(found);
        return old;
    }

    @Override
    public void forEach(BiConsumer<? super K, ? super V> action) {
        Objects.requireNonNull(action);
        int expected = modCount;
        for (Node<K, V> node = next(null); node != null; node = next(node)) {
            action.accept(node.key, node.value);
        }
        checkChanges(expected);
    }

    @Override
    public void replaceAll(BiFunction<? super K, ? super V, ? extends V> function) {
        Objects.requireNonNull(function);
        int expected = modCount;
        for (Node<K, V> node = next(null); node != null; node = next(node)) {
            node.value = function.apply(node.key, node.value);
        }
        checkChanges(expected);
    }

    /** Makes the first table, or one twice as long, in which each row keeps its order. */
    private void grow() {
        leaveWalks();
        order = null;
        Node<K, V>[] old = table;
        int length = old == null ? most == 0 ? 16 : most : old.length * 2;
        Node<K, V>[] rows = (Node<K, V>[]) new Node[length];
        table = rows;
        most = length / 4 * 3 + length % 4 * 3 / 4;
        if (old == null) {
            return;
        }
        for (int at = 0; at < old.length; at++) {
            Node<K, V> low = null;
            Node<K, V> high = null;
            Node<K, V> node = old[at];
            while (node != null) {
                Node<K, V> below = node.below;
                node.below = null;
                if ((node.hash & old.length) == 0) {
                    if (low == null) {
                        rows[at] = node;
                    } else {
                        low.below = node;
                    }
                    low = node;
                } else {
                    if (high == null) {
                        rows[at + old.length] = node;
                    } else {
                        high.below = node;
                    }
                    high = node;
                }
                node = below;
            }
        }
    }

    @Override
    public V remove(Object key) {
        Node<K, V> found = node(key);
        if (found == null) {
            return null;
        }
        cut(found);
        return found.value;
    }

    @Override
    public boolean remove(Object key, Object value) {
        return cut(key, value);
    }

    private boolean cut(Object key, Object value) {
        Node<K, V> found = node(key);
        if (found == null || !isSame(value, found.value)) {
            return false;
        }
        cut(found);
        return true;
    }

    final void cut(Node<K, V> found) {
        leaveWalks();
        int at = found.hash & table.length - 1;
        if (table[at] == found) {
            table[at] = found.below;
        } else {
            Node<K, V> node = table[at];
            while (node.below != found) {
                node = node.below;
            }
            node.below = found.below;
        }
        removed(found);
        modCount++;
        size--;
    }

    @Override
    public void clear() {
        leaveWalks();
        modCount++;
        if (size > 0) {
            size = 0;
            for (int at = 0; at < table.length; at++) {
                table[at] = null;
            }
        }
        cleared();
    }

    // What a map with an order of its own is told.

    void added(Node<K, V> node) {
    }

    void removed(Node<K, V> node) {
    }

    void touched(Node<K, V> node) {
    }

    /** What getOrDefault reads. */
    void read(Node<K, V> node) {
    }

    void inserted() {
    }

    void cleared() {
    }

    /** The next of the map's order, the first behind null. */
    Node<K, V> next(Node<K, V> node) {
        if (node != null && node.below != null) {
            return node.below;
        }
        int at = node == null ? 0 : (node.hash & table.length - 1) + 1;
        while (table != null && at < table.length) {
            if (table[at] != null) {
                return table[at];
            }
            at++;
        }
        return null;
    }

    /** Whether it is walked by the rows of its table. */
    boolean isByRows() {
        return true;
    }

    @Override
    public boolean containsValue(Object value) {
        for (Node<K, V> node = next(null); node != null; node = next(node)) {
            if (isSame(value, node.value)) {
                return true;
            }
        }
        return false;
    }

    @Override
    public void putAll(Map<? extends K, ? extends V> others) {
        int count = others.size();
        if (count == 0) {
            return;
        }
        if (table == null) {
            int wanted = count + count / 3 + 1;
            most = wanted > most ? lengthFor(wanted) : most;
        } else {
            while (count > most) {
                grow();
            }
        }
        for (Map.Entry<? extends K, ? extends V> entry : others.entrySet()) {
            put(entry.getKey(), entry.getValue(), false);
        }
    }

    @Override
    public Object clone() {
        return new HashMap<>(this);
    }

    @Override
    public Set<K> keySet() {
        if (keys == null) {
            keys = new Keys();
        }
        return keys;
    }

    @Override
    public Collection<V> values() {
        if (values == null) {
            values = new Values();
        }
        return values;
    }

    @Override
    public Set<Map.Entry<K, V>> entrySet() {
        if (entries == null) {
            entries = new Entries();
        }
        return entries;
    }

    @Override
    public boolean equals(Object other) {
        if (other == this) {
            return true;
        }
        if (!(other instanceof Map) || ((Map<?, ?>) other).size() != size()) {
            return false;
        }
        Map<?, ?> map = (Map<?, ?>) other;
        try {
            for (Map.Entry<K, V> entry : entrySet()) {
                V value = entry.getValue();
                Object same = map.get(entry.getKey());
                if (value == null ? same != null || !map.containsKey(entry.getKey()) : !value.equals(same)) {
                    return false;
                }
            }
        } catch (ClassCastException | NullPointerException unlike) {
            return false;
        }
        return true;
    }

    @Override
    public int hashCode() {
        int code = 0;
        for (Map.Entry<K, V> entry : entrySet()) {
            code += entry.hashCode();
        }
        return code;
    }

    @Override
    public String toString() {
        StringBuilder made = new StringBuilder("{");
        Iterator<Map.Entry<K, V>> walk = entrySet().iterator();
        while (walk.hasNext()) {
            Map.Entry<K, V> entry = walk.next();
            made.append(entry.getKey() == this ? "(this Map)" : String.valueOf(entry.getKey())).append("=");
            made.append(entry.getValue() == this ? "(this Map)" : String.valueOf(entry.getValue()));
            made.append(walk.hasNext() ? ", " : "");
        }
        return made.append("}").toString();
    }

    private final class Keys extends AbstractSet<K> {
        @Override
        public Iterator<K> iterator() {
            return isOrdered() ? new KeysAhead(order) : new KeyWalk();
        }

        @Override
        public int size() {
            return HashMap.this.size();
        }

        @Override
        public boolean contains(Object key) {
            return containsKey(key);
        }

        @Override
        public void clear() {
            HashMap.this.clear();
        }

        @Override
        public boolean remove(Object key) {
            Node<K, V> found = node(key);
            if (found == null) {
                return false;
            }
            cut(found);
            return true;
        }
    }

    private final class Values extends AbstractCollection<V> {
        @Override
        public Iterator<V> iterator() {
            return isOrdered() ? new ValuesAhead(order) : new ValueWalk();
        }

        @Override
        public int size() {
            return HashMap.this.size();
        }

        @Override
        public boolean contains(Object value) {
            return containsValue(value);
        }

        @Override
        public void clear() {
            HashMap.this.clear();
        }
    }

    private final class Entries extends AbstractSet<Map.Entry<K, V>> {
        @Override
        public Iterator<Map.Entry<K, V>> iterator() {
            return isOrdered() ? new EntriesAhead(order) : new EntryWalk();
        }

        @Override
        public int size() {
            return size;
        }

        @Override
        public boolean contains(Object other) {
            Node<K, V> found = other instanceof Map.Entry ? node(((Map.Entry<?, ?>) other).getKey()) : null;
            return found != null && found.equals(other);
        }

        @Override
        public boolean remove(Object other) {
            return other instanceof Map.Entry && cut(((Map.Entry<?, ?>) other).getKey(), ((Map.Entry<?, ?>) other).getValue());
        }

        @Override
        public void clear() {
            HashMap.this.clear();
        }
    }

    /**
     * Whether the order of the rows is there for a new walk. It is found out where that takes no longer than what was changed since it was last, or than
     * the walks since the last change; and it isn't where some walks over it stand still.
     */
    final boolean isOrdered() {
        if (order == null || orderedAt != modCount) {
            if (!isByRows()) {
                return false;
            }
            walked = walkedAt == modCount ? walked + 1 : 1;
            walkedAt = modCount;
            if (order != null && (modCount - orderedAt) * 2 < size && walked * 16 < size) {
                return false;
            }
            order = ordered();
            orderedAt = modCount;
        }
        int many = 0;
        Ahead open = null;
        for (Ahead walk = walks; walk != null; walk = walk.other) {
            if (walk.hasNext()) {
                open = walk.before(open);
                many++;
            }
        }
        walks = open;
        return many < MOST_WALKS;
    }

    private Order ordered() {
        Order made = new Order(size);
        int left = size;
        for (int at = 0; left > 0; at++) {
            for (Node<K, V> node = table[at]; node != null; node = node.below) {
                made.add(node);
                left--;
            }
        }
        return made;
    }

    /** What is to be done before the rows change: walks over the order go on by the rows. */
    private void leaveWalks() {
        if (walks != null) {
            for (Ahead walk = walks; walk != null; walk = walk.other) {
                walk.byRows();
            }
            walks = null;
        }
    }

    private abstract class Ahead {
        /** That of the order's, or one by rows. */
        Iterator<?> walk;
        private Order of;
        private final int expected = modCount;
        Ahead other;

        Ahead(Order of) {
            this.of = of;
            walk = of.iterator();
            other = walks;
            walks = this;
        }

        Ahead before(Ahead next) {
            other = next;
            return this;
        }

        public final boolean hasNext() {
            return walk.hasNext();
        }

        final EntryWalk byRows() {
            if (of != null) {
                int at = of.size();
                while (walk.hasNext()) {
                    walk.next();
                    at--;
                }
                Node<K, V> current = at == 0 ? null : (Node<K, V>) of.get(at - 1);
                walk = new EntryWalk(current, at == of.size() ? null : (Node<K, V>) of.get(at), expected);
                of = null;
            }
            return (EntryWalk) walk;
        }

        public final void remove() {
            byRows().remove();
        }

        /** What is thrown where a walk has no next. */
        final RuntimeException none(NoSuchElementException none) {
            return modCount == expected || of == null ? none : new ConcurrentModificationException();
        }
    }

    private final class KeysAhead extends Ahead implements Iterator<K> {
        KeysAhead(Order of) {
            super(of);
        }

        @Override
        public K next() {
            try {
                return ((Node<K, V>) walk.next()).key;
            } catch (NoSuchElementException none) {
                throw none(none);
            }
        }
    }

    private final class ValuesAhead extends Ahead implements Iterator<V> {
        ValuesAhead(Order of) {
            super(of);
        }

        @Override
        public V next() {
            try {
                return ((Node<K, V>) walk.next()).value;
            } catch (NoSuchElementException none) {
                throw none(none);
            }
        }
    }

    private final class EntriesAhead extends Ahead implements Iterator<Map.Entry<K, V>> {
        EntriesAhead(Order of) {
            super(of);
        }

        @Override
        public Map.Entry<K, V> next() {
            try {
                return (Node<K, V>) walk.next();
            } catch (NoSuchElementException none) {
                throw none(none);
            }
        }
    }

    private class Walk {
        private Node<K, V> ahead;
        private Node<K, V> current;
        /** The row that is looked into next. */
        private int row;
        private int expected = modCount;
        private final boolean isByRows = isByRows();

        Walk(Node<K, V> current, Node<K, V> ahead, int expected) {
            this.current = current;
            this.ahead = ahead;
            this.expected = expected;
            row = ahead == null ? 0 : (ahead.hash & table.length - 1) + 1;
        }

        Walk() {
            if (isByRows) {
                goToRow();
            } else {
                ahead = HashMap.this.next(null);
            }
        }

        private void goToRow() {
            Node<K, V>[] rows = table;
            if (rows == null) {
                return;
            }
            int at = row;
            int end = rows.length;
            Node<K, V> found = null;
            while (at < end && (found = rows[at++]) == null) {
                continue;
            }
            ahead = found;
            row = at;
        }

        public final boolean hasNext() {
            return ahead != null;
        }

        final Node<K, V> step() {
            if (modCount != expected) {
                throw new ConcurrentModificationException();
            }
            Node<K, V> found = ahead;
            if (found == null) {
                throw new NoSuchElementException();
            }
            current = found;
            if (isByRows) {
                ahead = found.below;
                if (ahead == null) {
                    goToRow();
                }
            } else {
                ahead = HashMap.this.next(found);
            }
            return found;
        }

        public final void remove() {
            Node<K, V> found = current;
            if (found == null) {
                throw new IllegalStateException();
            }
            if (modCount != expected) {
                throw new ConcurrentModificationException();
            }
            current = null;
            cut(found);
            expected = modCount;
        }
    }

    private final class KeyWalk extends Walk implements Iterator<K> {
        @Override
        public K next() {
            return step().key;
        }
    }

    private final class ValueWalk extends Walk implements Iterator<V> {
        @Override
        public V next() {
            return step().value;
        }
    }

    private final class EntryWalk extends Walk implements Iterator<Map.Entry<K, V>> {
        EntryWalk() {
        }

        EntryWalk(Node<K, V> current, Node<K, V> ahead, int expected) {
            super(current, ahead, expected);
        }

        @Override
        public Map.Entry<K, V> next() {
            return step();
        }
    }

    // For a variable of the profile's own class.

    public static Object clone(java.util.HashMap of) {
        return of instanceof HashMap ? ((HashMap) of).clone() : new HashMap(of);
    }
}
