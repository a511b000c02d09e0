package java.util;

import java.io.Serializable;

public class TreeSet<E> extends AbstractSet<E> implements NavigableSet<E>, Cloneable, Serializable {
    private static final Object HERE = new Object();

    private final NavigableMap<E, Object> map;
    private final boolean isKeys;

    public TreeSet() {
        this(new TreeMap<E, Object>(), false);
    }

    public TreeSet(Comparator<? super E> by) {
        this(new TreeMap<E, Object>(by), false);
    }

    public TreeSet(Collection<? extends E> of) {
        this();
        addAll(of);
    }

    public TreeSet(SortedSet<E> of) {
        this(of.comparator());
        addAll(of);
    }

    /** The keys of a map, to which nothing is added where they are seen as such. */
    TreeSet(NavigableMap<E, ?> map, boolean isKeys) {
        this.map = (NavigableMap<E, Object>) map;
        this.isKeys = isKeys;
    }

    @Override
    public int size() {
        return map.size();
    }

    @Override
    public boolean contains(Object sought) {
        return map.containsKey(sought);
    }

    @Override
    public boolean add(E next) {
        if (isKeys) {
            throw new UnsupportedOperationException();
        }
        return map.put(next, HERE) == null;
    }

    @Override
    public boolean remove(Object sought) {
        if (!map.containsKey(sought)) {
            return false;
        }
        map.remove(sought);
        return true;
    }

    @Override
    public void clear() {
        map.clear();
    }

    @Override
    public Iterator<E> iterator() {
        Iterator<Map.Entry<E, Object>> walk = map.entrySet().iterator();
        return new Iterator<E>() {
            @Override
            public boolean hasNext() {
                return walk.hasNext();
            }

            @Override
            public E next() {
                return walk.next().getKey();
            }

            @Override
            public void remove() {
                walk.remove();
            }
        };
    }

    @Override
    public Object clone() {
        return new TreeSet<E>((SortedSet<E>) this);
    }

    @Override
    public Comparator<? super E> comparator() {
        return map.comparator();
    }

    @Override
    public E first() {
        return map.firstKey();
    }

    @Override
    public E last() {
        return map.lastKey();
    }

    @Override
    public E lower(E of) {
        return map.lowerKey(of);
    }

    @Override
    public E floor(E of) {
        return map.floorKey(of);
    }

    @Override
    public E ceiling(E of) {
        return map.ceilingKey(of);
    }

    @Override
    public E higher(E of) {
        return map.higherKey(of);
    }

    @Override
    public E pollFirst() {
        Map.Entry<E, Object> found = map.pollFirstEntry();
        return found == null ? null : found.getKey();
    }

    @Override
    public E pollLast() {
        Map.Entry<E, Object> found = map.pollLastEntry();
        return found == null ? null : found.getKey();
    }

    @Override
    public NavigableSet<E> descendingSet() {
        return new TreeSet<>(map.descendingMap(), isKeys);
    }

    @Override
    public Iterator<E> descendingIterator() {
        return descendingSet().iterator();
    }

    @Override
    public NavigableSet<E> subSet(E from, boolean withFrom, E to, boolean withTo) {
        return new TreeSet<>(map.subMap(from, withFrom, to, withTo), isKeys);
    }

    @Override
    public NavigableSet<E> headSet(E to, boolean withTo) {
        return new TreeSet<>(map.headMap(to, withTo), isKeys);
    }

    @Override
    public NavigableSet<E> tailSet(E from, boolean withFrom) {
        return new TreeSet<>(map.tailMap(from, withFrom), isKeys);
    }

    @Override
    public SortedSet<E> subSet(E from, E to) {
        return subSet(from, true, to, false);
    }

    @Override
    public SortedSet<E> headSet(E to) {
        return headSet(to, false);
    }

    @Override
    public SortedSet<E> tailSet(E from) {
        return tailSet(from, true);
    }
}
