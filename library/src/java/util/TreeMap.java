package java.util;

import java.io.Serializable;

/** A sorted map as a sorted array; a part of one, or one the other way round, is a view with bounds. */
public class TreeMap<K, V> extends AbstractMap<K, V> implements NavigableMap<K, V>, Cloneable, Serializable {
    private static final class Rows<K, V> {
        final Comparator<? super K> by;
        Row<K, V>[] rows = (Row<K, V>[]) new Row[8];
        int size;
        int modCount;

        Rows(Comparator<? super K> by) {
            this.by = by;
        }

        int compare(Object one, Object other) {
            return by == null ? ((Comparable<Object>) one).compareTo(other) : by.compare((K) one, (K) other);
        }

        /** The number of rows whose keys are less than a key; it is the first argument, as in Java, which a comparator may tell. */
        int below(Object key) {
            int low = 0;
            int high = size;
            while (low < high) {
                int middle = low + high >>> 1;
                if (compare(key, rows[middle].getKey()) > 0) {
                    low = middle + 1;
                } else {
                    high = middle;
                }
            }
            return low;
        }

        boolean isAt(int at, Object key) {
            return at < size && compare(key, rows[at].getKey()) == 0;
        }

        void insert(int at, Row<K, V> row) {
            if (size == rows.length) {
                rows = Arrays.copyOf(rows, size * 2);
            }
            System.arraycopy(rows, at, rows, at + 1, size - at);
            rows[at] = row;
            size++;
            modCount++;
        }

        void remove(int at) {
            size--;
            System.arraycopy(rows, at + 1, rows, at, size - at);
            rows[size] = null;
            modCount++;
        }
    }

    private static final class Row<K, V> extends AbstractMap.SimpleEntry<K, V> {
        Row(K key, V value) {
            super(key, value);
        }
    }

    private final Rows<K, V> all;
    private final boolean hasLow;
    private final K low;
    private final boolean withLow;
    private final boolean hasHigh;
    private final K high;
    private final boolean withHigh;
    private final boolean isDown;

    public TreeMap() {
        this((Comparator<? super K>) null);
    }

    public TreeMap(Comparator<? super K> by) {
        this(new Rows<>(by), false, null, false, false, null, false, false);
    }

    public TreeMap(Map<? extends K, ? extends V> of) {
        this((Comparator<? super K>) null);
        putAll(of);
    }

    public TreeMap(SortedMap<K, ? extends V> of) {
        this(of.comparator());
        putAll(of);
    }

    private TreeMap(Rows<K, V> all, boolean hasLow, K low, boolean withLow, boolean hasHigh, K high, boolean withHigh,
            boolean isDown) {
        this.all = all;
        this.hasLow = hasLow;
        this.low = low;
        this.withLow = withLow;
        this.hasHigh = hasHigh;
        this.high = high;
        this.withHigh = withHigh;
        this.isDown = isDown;
    }

    // Places of rows: the first that is in, and the one behind the last.

    private int start() {
        if (!hasLow) {
            return 0;
        }
        int at = all.below(low);
        return !withLow && all.isAt(at, low) ? at + 1 : at;
    }

    private int end() {
        if (!hasHigh) {
            return all.size;
        }
        int at = all.below(high);
        return withHigh && all.isAt(at, high) ? at + 1 : at;
    }

    private boolean isIn(Object key) {
        if (hasLow) {
            int order = all.compare(key, low);
            if (order < 0 || order == 0 && !withLow) {
                return false;
            }
        }
        if (hasHigh) {
            int order = all.compare(key, high);
            return order < 0 || order == 0 && withHigh;
        }
        return true;
    }

    private Row<K, V> row(int at) {
        return at >= start() && at < end() ? all.rows[at] : null;
    }

    private Row<K, V> found(Object key) {
        if (key == null && all.by == null) {
            throw new NullPointerException();
        }
        if (!isIn(key)) {
            return null;
        }
        int at = all.below(key);
        return all.isAt(at, key) ? all.rows[at] : null;
    }

    @Override
    public int size() {
        return Math.max(end() - start(), 0);
    }

    @Override
    public boolean containsKey(Object key) {
        return found(key) != null;
    }

    @Override
    public V get(Object key) {
        Row<K, V> row = found(key);
        return row == null ? null : row.getValue();
    }

    @Override
    public V put(K key, V value) {
        if (key == null && all.by == null) {
            throw new NullPointerException();
        }
        if (!isIn(key)) {
            throw new IllegalArgumentException("key out of range");
        }
        if (all.size == 0) {
            all.compare(key, key);
        }
        int at = all.below(key);
        if (all.isAt(at, key)) {
            return all.rows[at].setValue(value);
        }
        all.insert(at, new Row<>(key, value));
        return null;
    }

    @Override
    public V remove(Object key) {
        Row<K, V> row = found(key);
        if (row == null) {
            return null;
        }
        all.remove(all.below(key));
        return row.getValue();
    }

    @Override
    public void clear() {
        int from = start();
        for (int at = end() - 1; at >= from; at--) {
            all.remove(at);
        }
    }

    @Override
    public Object clone() {
        return new TreeMap<K, V>((SortedMap<K, V>) this);
    }

    @Override
    public Comparator<? super K> comparator() {
        return isDown ? Collections.reverseOrder((Comparator<K>) all.by) : all.by;
    }

    // Neighbours.

    private static <K, V> Map.Entry<K, V> copy(Row<K, V> row) {
        return row == null ? null : new AbstractMap.SimpleImmutableEntry<>(row);
    }

    private static <K, V> K key(Row<K, V> row) {
        return row == null ? null : row.getKey();
    }

    private static <K, V> K some(Row<K, V> row) {
        if (row == null) {
            throw new NoSuchElementException();
        }
        return row.getKey();
    }

    private Row<K, V> least() {
        return isDown ? row(end() - 1) : row(start());
    }

    private Row<K, V> greatest() {
        return isDown ? row(start()) : row(end() - 1);
    }

    /** The nearest row before a key, or behind it, in the map's own order. */
    private Row<K, V> beside(K key, boolean isBehind, boolean withKey) {
        int at = all.below(key);
        boolean isThere = all.isAt(at, key);
        if (isBehind != isDown) {
            int to = isThere && !withKey ? at + 1 : at;
            return row(Math.max(to, start()));
        }
        int to = isThere && withKey ? at : at - 1;
        return row(Math.min(to, end() - 1));
    }

    @Override
    public Map.Entry<K, V> lowerEntry(K key) {
        return copy(beside(key, false, false));
    }

    @Override
    public K lowerKey(K key) {
        return key(beside(key, false, false));
    }

    @Override
    public Map.Entry<K, V> floorEntry(K key) {
        return copy(beside(key, false, true));
    }

    @Override
    public K floorKey(K key) {
        return key(beside(key, false, true));
    }

    @Override
    public Map.Entry<K, V> ceilingEntry(K key) {
        return copy(beside(key, true, true));
    }

    @Override
    public K ceilingKey(K key) {
        return key(beside(key, true, true));
    }

    @Override
    public Map.Entry<K, V> higherEntry(K key) {
        return copy(beside(key, true, false));
    }

    @Override
    public K higherKey(K key) {
        return key(beside(key, true, false));
    }

    @Override
    public Map.Entry<K, V> firstEntry() {
        return copy(least());
    }

    @Override
    public Map.Entry<K, V> lastEntry() {
        return copy(greatest());
    }

    @Override
    public Map.Entry<K, V> pollFirstEntry() {
        Row<K, V> row = least();
        if (row != null) {
            all.remove(all.below(row.getKey()));
        }
        return copy(row);
    }

    @Override
    public Map.Entry<K, V> pollLastEntry() {
        Row<K, V> row = greatest();
        if (row != null) {
            all.remove(all.below(row.getKey()));
        }
        return copy(row);
    }

    @Override
    public K firstKey() {
        return some(least());
    }

    @Override
    public K lastKey() {
        return some(greatest());
    }

    // Views.

    @Override
    public NavigableMap<K, V> descendingMap() {
        return new TreeMap<>(all, hasLow, low, withLow, hasHigh, high, withHigh, !isDown);
    }

    private TreeMap<K, V> part(boolean hasFrom, K from, boolean withFrom, boolean hasTo, K to, boolean withTo) {
        if (hasFrom && hasTo && (isDown ? all.compare(to, from) : all.compare(from, to)) > 0) {
            throw new IllegalArgumentException("fromKey > toKey");
        }
        if (hasFrom) {
            checkBound(from, withFrom);
        }
        if (hasTo) {
            checkBound(to, withTo);
        }
        boolean newLow = isDown ? hasTo : hasFrom;
        boolean newHigh = isDown ? hasFrom : hasTo;
        return new TreeMap<>(all, newLow || hasLow, newLow ? isDown ? to : from : low,
            newLow ? isDown ? withTo : withFrom : withLow, newHigh || hasHigh, newHigh ? isDown ? from : to : high,
            newHigh ? isDown ? withFrom : withTo : withHigh, isDown);
    }

    private void checkBound(K key, boolean isIn) {
        all.compare(key, key);
        boolean tooLow = hasLow && (all.compare(key, low) < 0 || isIn && !withLow && all.compare(key, low) == 0);
        boolean tooHigh = hasHigh && (all.compare(key, high) > 0 || isIn && !withHigh && all.compare(key, high) == 0);
        if (tooLow || tooHigh) {
            throw new IllegalArgumentException("key out of range");
        }
    }

    @Override
    public NavigableMap<K, V> subMap(K from, boolean withFrom, K to, boolean withTo) {
        return part(true, from, withFrom, true, to, withTo);
    }

    @Override
    public NavigableMap<K, V> headMap(K to, boolean withTo) {
        return part(false, null, false, true, to, withTo);
    }

    @Override
    public NavigableMap<K, V> tailMap(K from, boolean withFrom) {
        return part(true, from, withFrom, false, null, false);
    }

    @Override
    public SortedMap<K, V> subMap(K from, K to) {
        return part(true, from, true, true, to, false);
    }

    @Override
    public SortedMap<K, V> headMap(K to) {
        return part(false, null, false, true, to, false);
    }

    @Override
    public SortedMap<K, V> tailMap(K from) {
        return part(true, from, true, false, null, false);
    }

    @Override
    public NavigableSet<K> navigableKeySet() {
        return new TreeSet<>(this, true);
    }

    @Override
    public NavigableSet<K> descendingKeySet() {
        return descendingMap().navigableKeySet();
    }

    @Override
    public Set<K> keySet() {
        return navigableKeySet();
    }

    @Override
    public Set<Map.Entry<K, V>> entrySet() {
        return new Entries();
    }

    private final class Entries extends AbstractSet<Map.Entry<K, V>> {
        @Override
        public Iterator<Map.Entry<K, V>> iterator() {
            return new Walk();
        }

        @Override
        public int size() {
            return TreeMap.this.size();
        }

        @Override
        public boolean contains(Object other) {
            return other instanceof Map.Entry && other.equals(found(((Map.Entry<?, ?>) other).getKey()));
        }

        @Override
        public boolean remove(Object other) {
            if (!contains(other)) {
                return false;
            }
            TreeMap.this.remove(((Map.Entry<?, ?>) other).getKey());
            return true;
        }

        @Override
        public void clear() {
            TreeMap.this.clear();
        }
    }

    private final class Walk implements Iterator<Map.Entry<K, V>> {
        private int at = isDown ? end() - 1 : start();
        private int last = -1;
        private int expected = all.modCount;
        /** Whether something is ahead, as it was when the walk came here: what is put there since is not. */
        private boolean isAhead = isInside();

        private boolean isInside() {
            return at >= start() && at < end();
        }

        @Override
        public boolean hasNext() {
            return isAhead;
        }

        @Override
        public Map.Entry<K, V> next() {
            if (!isAhead) {
                throw new NoSuchElementException();
            }
            if (expected != all.modCount) {
                throw new ConcurrentModificationException();
            }
            last = at;
            at += isDown ? -1 : 1;
            isAhead = isInside();
            return all.rows[last];
        }

        @Override
        public void remove() {
            if (last < 0) {
                throw new IllegalStateException();
            }
            if (expected != all.modCount) {
                throw new ConcurrentModificationException();
            }
            all.remove(last);
            at -= isDown ? 0 : 1;
            last = -1;
            expected = all.modCount;
        }
    }
}
