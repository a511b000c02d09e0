package more.java.util;

import java.util.AbstractCollection;
import java.util.AbstractList;
import java.util.AbstractMap;
import java.util.AbstractSet;
import java.util.ArrayList;
import java.util.Collection;
import java.util.Comparator;
import java.util.Enumeration;
import java.util.HashMap;
import java.util.Iterator;
import java.util.List;
import java.util.ListIterator;
import java.util.Map;
import java.util.NoSuchElementException;
import java.util.Objects;
import java.util.Random;
import java.util.Set;
import java.util.SortedMap;
import java.util.SortedSet;
import java.util.TreeMap;
import java.util.TreeSet;
import java.util.function.BiFunction;
import java.util.function.Function;
import java.util.function.Predicate;
import java.util.function.UnaryOperator;

/** Members of java.util.Collections. */
public final class Collections {
    public static final List EMPTY_LIST = new NoList();
    public static final Set EMPTY_SET = new NoSet();
    public static final Map EMPTY_MAP = new NoMap();

    private Collections() {
    }

    private static UnsupportedOperationException unchanging() {
        return new UnsupportedOperationException();
    }

    // Views that don't change.

    private static final class FixedWalk implements ListIterator {
        private final Iterator of;

        FixedWalk(Iterator of) {
            this.of = of;
        }

        @Override
        public boolean hasNext() {
            return of.hasNext();
        }

        @Override
        public Object next() {
            return of.next();
        }

        @Override
        public boolean hasPrevious() {
            return ((ListIterator) of).hasPrevious();
        }

        @Override
        public Object previous() {
            return ((ListIterator) of).previous();
        }

        @Override
        public int nextIndex() {
            return ((ListIterator) of).nextIndex();
        }

        @Override
        public int previousIndex() {
            return ((ListIterator) of).previousIndex();
        }

        @Override
        public void remove() {
            throw unchanging();
        }

        @Override
        public void set(Object to) {
            throw unchanging();
        }

        @Override
        public void add(Object next) {
            throw unchanging();
        }
    }

    private static class Fixed extends AbstractCollection {
        final Collection of;

        Fixed(Collection of) {
            if (of == null) {
                throw new NullPointerException();
            }
            this.of = of;
        }

        @Override
        public int size() {
            return of.size();
        }

        @Override
        public boolean contains(Object sought) {
            return of.contains(sought);
        }

        @Override
        public Iterator iterator() {
            return new FixedWalk(of.iterator());
        }

        @Override
        public boolean remove(Object sought) {
            throw unchanging();
        }

        @Override
        public boolean addAll(Collection others) {
            throw unchanging();
        }

        @Override
        public boolean removeAll(Collection others) {
            throw unchanging();
        }

        @Override
        public boolean retainAll(Collection others) {
            throw unchanging();
        }

        @Override
        public boolean removeIf(Predicate filter) {
            throw unchanging();
        }

        @Override
        public void clear() {
            throw unchanging();
        }

        @Override
        public String toString() {
            return of.toString();
        }
    }

    private static class FixedSet extends Fixed implements Set {
        FixedSet(Collection of) {
            super(of);
        }

        @Override
        public boolean equals(Object other) {
            if (other == this) {
                return true;
            }
            return other instanceof Set && ((Set) other).size() == size() && containsAll((Set) other);
        }

        @Override
        public int hashCode() {
            int code = 0;
            for (Object next : of) {
                code += next == null ? 0 : next.hashCode();
            }
            return code;
        }
    }

    private static final class FixedList extends AbstractList implements java.util.RandomAccess {
        private final List of;

        FixedList(List of) {
            if (of == null) {
                throw new NullPointerException();
            }
            this.of = of;
        }

        @Override
        public Object get(int at) {
            return of.get(at);
        }

        @Override
        public int size() {
            return of.size();
        }

        @Override
        public Iterator iterator() {
            return new FixedWalk(of.iterator());
        }

        @Override
        public ListIterator listIterator() {
            return new FixedWalk(of.listIterator());
        }

        @Override
        public ListIterator listIterator(int at) {
            return new FixedWalk(of.listIterator(at));
        }

        @Override
        public List subList(int from, int to) {
            return new FixedList(of.subList(from, to));
        }

        @Override
        public boolean contains(Object sought) {
            return of.contains(sought);
        }

        @Override
        public int indexOf(Object sought) {
            return of.indexOf(sought);
        }

        @Override
        public int lastIndexOf(Object sought) {
            return of.lastIndexOf(sought);
        }

        @Override
        public boolean equals(Object other) {
            return other == this || of.equals(other);
        }

        @Override
        public int hashCode() {
            return of.hashCode();
        }

        @Override
        public String toString() {
            return of.toString();
        }

        @Override
        public void sort(Comparator by) {
            throw unchanging();
        }

        @Override
        public void replaceAll(UnaryOperator operator) {
            throw unchanging();
        }

        @Override
        public boolean removeIf(Predicate filter) {
            throw unchanging();
        }

        @Override
        public boolean remove(Object sought) {
            throw unchanging();
        }

        @Override
        public boolean addAll(Collection others) {
            throw unchanging();
        }

        @Override
        public boolean removeAll(Collection others) {
            throw unchanging();
        }

        @Override
        public boolean retainAll(Collection others) {
            throw unchanging();
        }

        @Override
        public void clear() {
            throw unchanging();
        }
    }

    private static class FixedMap extends AbstractMap {
        private final Map of;

        FixedMap(Map of) {
            if (of == null) {
                throw new NullPointerException();
            }
            this.of = of;
        }

        @Override
        public int size() {
            return of.size();
        }

        @Override
        public boolean containsKey(Object key) {
            return of.containsKey(key);
        }

        @Override
        public Object get(Object key) {
            return of.get(key);
        }

        @Override
        public Object put(Object key, Object value) {
            throw unchanging();
        }

        @Override
        public Object putIfAbsent(Object key, Object value) {
            throw unchanging();
        }

        @Override
        public Object remove(Object key) {
            throw unchanging();
        }

        @Override
        public boolean remove(Object key, Object value) {
            throw unchanging();
        }

        @Override
        public Object replace(Object key, Object value) {
            throw unchanging();
        }

        @Override
        public boolean replace(Object key, Object old, Object value) {
            throw unchanging();
        }

        @Override
        public void replaceAll(BiFunction function) {
            throw unchanging();
        }

        @Override
        public Object computeIfAbsent(Object key, Function function) {
            throw unchanging();
        }

        @Override
        public Object computeIfPresent(Object key, BiFunction function) {
            throw unchanging();
        }

        @Override
        public Object compute(Object key, BiFunction function) {
            throw unchanging();
        }

        @Override
        public Object merge(Object key, Object value, BiFunction function) {
            throw unchanging();
        }

        @Override
        public void putAll(Map others) {
            throw unchanging();
        }

        @Override
        public void clear() {
            throw unchanging();
        }

        @Override
        public boolean containsValue(Object value) {
            return of.containsValue(value);
        }

        @Override
        public boolean equals(Object other) {
            return other == this || of.equals(other);
        }

        @Override
        public int hashCode() {
            return of.hashCode();
        }

        @Override
        public String toString() {
            return of.toString();
        }

        @Override
        public Set keySet() {
            return new FixedSet(of.keySet());
        }

        @Override
        public Collection values() {
            return new Fixed(of.values());
        }

        @Override
        public Set entrySet() {
            return new FixedEntries(of.entrySet());
        }
    }

    private static final class FixedEntries extends FixedSet {
        FixedEntries(Collection of) {
            super(of);
        }

        @Override
        public Iterator iterator() {
            Iterator walk = of.iterator();
            return new Iterator() {
                @Override
                public boolean hasNext() {
                    return walk.hasNext();
                }

                @Override
                public Object next() {
                    return new AbstractMap.SimpleImmutableEntry((Map.Entry) walk.next());
                }

                @Override
                public void remove() {
                    throw unchanging();
                }
            };
        }
    }

    public static Collection unmodifiableCollection(Collection of) {
        return new Fixed(of);
    }

    public static List unmodifiableList(List of) {
        return new FixedList(of);
    }

    public static Set unmodifiableSet(Set of) {
        return new FixedSet(of);
    }

    public static Map unmodifiableMap(Map of) {
        return new FixedMap(of);
    }

    private static class FixedSortedSet extends FixedSet implements SortedSet {
        private final SortedSet of;

        FixedSortedSet(SortedSet of) {
            super(of);
            this.of = of;
        }

        @Override
        public Comparator comparator() {
            return of.comparator();
        }

        @Override
        public SortedSet subSet(Object from, Object to) {
            return new FixedSortedSet(of.subSet(from, to));
        }

        @Override
        public SortedSet headSet(Object to) {
            return new FixedSortedSet(of.headSet(to));
        }

        @Override
        public SortedSet tailSet(Object from) {
            return new FixedSortedSet(of.tailSet(from));
        }

        @Override
        public Object first() {
            return of.first();
        }

        @Override
        public Object last() {
            return of.last();
        }
    }

    private static class FixedSortedMap extends FixedMap implements SortedMap {
        private final SortedMap of;

        FixedSortedMap(SortedMap of) {
            super(of);
            this.of = of;
        }

        @Override
        public Comparator comparator() {
            return of.comparator();
        }

        @Override
        public SortedMap subMap(Object from, Object to) {
            return new FixedSortedMap(of.subMap(from, to));
        }

        @Override
        public SortedMap headMap(Object to) {
            return new FixedSortedMap(of.headMap(to));
        }

        @Override
        public SortedMap tailMap(Object from) {
            return new FixedSortedMap(of.tailMap(from));
        }

        @Override
        public Object firstKey() {
            return of.firstKey();
        }

        @Override
        public Object lastKey() {
            return of.lastKey();
        }
    }

    public static SortedSet unmodifiableSortedSet(SortedSet of) {
        return new FixedSortedSet(of);
    }

    public static SortedMap unmodifiableSortedMap(SortedMap of) {
        return new FixedSortedMap(of);
    }

    // There is one thread.

    /** Another collection with no more members than a collection has. */
    private static final class Guarded extends AbstractCollection {
        private final Collection of;

        Guarded(Collection of) {
            this.of = Objects.requireNonNull(of);
        }

        @Override
        public int size() {
            return of.size();
        }

        @Override
        public boolean isEmpty() {
            return of.isEmpty();
        }

        @Override
        public boolean contains(Object sought) {
            return of.contains(sought);
        }

        @Override
        public Iterator iterator() {
            return of.iterator();
        }

        @Override
        public Object[] toArray() {
            return of.toArray();
        }

        @Override
        public Object[] toArray(Object[] into) {
            return of.toArray(into);
        }

        @Override
        public boolean add(Object next) {
            return of.add(next);
        }

        @Override
        public boolean remove(Object sought) {
            return of.remove(sought);
        }

        @Override
        public boolean containsAll(Collection others) {
            return of.containsAll(others);
        }

        @Override
        public boolean addAll(Collection others) {
            return of.addAll(others);
        }

        @Override
        public boolean removeAll(Collection others) {
            return of.removeAll(others);
        }

        @Override
        public boolean retainAll(Collection others) {
            return of.retainAll(others);
        }

        @Override
        public void clear() {
            of.clear();
        }

        @Override
        public String toString() {
            return of.toString();
        }
    }

    public static Collection synchronizedCollection(Collection of) {
        return new Guarded(of);
    }

    public static List synchronizedList(List of) {
        return Objects.requireNonNull(of);
    }

    public static Set synchronizedSet(Set of) {
        return Objects.requireNonNull(of);
    }

    public static Map synchronizedMap(Map of) {
        return Objects.requireNonNull(of);
    }

    public static SortedSet synchronizedSortedSet(SortedSet of) {
        return Objects.requireNonNull(of);
    }

    public static SortedMap synchronizedSortedMap(SortedMap of) {
        return Objects.requireNonNull(of);
    }

    // What holds nothing, and one thing or the same thing many times.

    private static final class NoWalk implements ListIterator, Enumeration {
        @Override
        public boolean hasNext() {
            return false;
        }

        @Override
        public Object next() {
            throw new NoSuchElementException();
        }

        @Override
        public boolean hasMoreElements() {
            return false;
        }

        @Override
        public Object nextElement() {
            throw new NoSuchElementException();
        }

        @Override
        public boolean hasPrevious() {
            return false;
        }

        @Override
        public Object previous() {
            throw new NoSuchElementException();
        }

        @Override
        public int nextIndex() {
            return 0;
        }

        @Override
        public int previousIndex() {
            return -1;
        }

        @Override
        public void remove() {
            throw new IllegalStateException();
        }

        @Override
        public void set(Object to) {
            throw new IllegalStateException();
        }

        @Override
        public void add(Object next) {
            throw unchanging();
        }
    }

    private static final class NoList extends AbstractList implements java.util.RandomAccess {
        @Override
        public Object get(int at) {
            throw new IndexOutOfBoundsException("Index: " + at);
        }

        @Override
        public int size() {
            return 0;
        }

        @Override
        public Iterator iterator() {
            return new NoWalk();
        }

        @Override
        public ListIterator listIterator() {
            return new NoWalk();
        }
    }

    private static final class NoSet extends AbstractSet {
        @Override
        public int size() {
            return 0;
        }

        @Override
        public Iterator iterator() {
            return new NoWalk();
        }
    }

    private static final class NoMap extends FixedMap {
        NoMap() {
            super(new HashMap());
        }

        @Override
        public Object remove(Object key) {
            return null;
        }

        @Override
        public void replaceAll(BiFunction function) {
            Objects.requireNonNull(function);
        }

        @Override
        public void putAll(Map others) {
            if (!others.isEmpty()) {
                throw unchanging();
            }
        }

        @Override
        public void clear() {
        }
    }

    private static final class Copies extends AbstractList implements java.util.RandomAccess {
        private final int size;
        private final Object item;

        Copies(int size, Object item) {
            this.size = size;
            this.item = item;
        }

        @Override
        public Object get(int at) {
            if (at < 0 || at >= size) {
                throw new IndexOutOfBoundsException("Index: " + at + ", Size: " + size);
            }
            return item;
        }

        @Override
        public int size() {
            return size;
        }
    }

    private static final class OneWalk implements Iterator {
        private final Object item;
        private boolean isAhead = true;

        OneWalk(Object item) {
            this.item = item;
        }

        @Override
        public boolean hasNext() {
            return isAhead;
        }

        @Override
        public Object next() {
            if (!isAhead) {
                throw new NoSuchElementException();
            }
            isAhead = false;
            return item;
        }

        @Override
        public void remove() {
            throw unchanging();
        }
    }

    private static final class OneList extends AbstractList implements java.util.RandomAccess {
        private final Object item;

        OneList(Object item) {
            this.item = item;
        }

        @Override
        public Object get(int at) {
            if (at != 0) {
                throw new IndexOutOfBoundsException("Index: " + at + ", Size: 1");
            }
            return item;
        }

        @Override
        public int size() {
            return 1;
        }

        @Override
        public Iterator iterator() {
            return new OneWalk(item);
        }

        @Override
        public void sort(Comparator by) {
        }

        @Override
        public boolean removeIf(Predicate filter) {
            throw unchanging();
        }
    }

    private static final class OneSet extends AbstractSet {
        private final Object item;

        OneSet(Object item) {
            this.item = item;
        }

        @Override
        public int size() {
            return 1;
        }

        @Override
        public Iterator iterator() {
            return new OneWalk(item);
        }

        @Override
        public boolean removeIf(Predicate filter) {
            throw unchanging();
        }
    }

    private static final class OneMap extends FixedMap {
        OneMap(Map of) {
            super(of);
        }

        @Override
        public Object remove(Object sought) {
            if (containsKey(sought)) {
                throw unchanging();
            }
            return null;
        }

        @Override
        public void putAll(Map others) {
            if (!others.isEmpty()) {
                throw unchanging();
            }
        }
    }

    public static List emptyList() {
        return EMPTY_LIST;
    }

    public static Set emptySet() {
        return EMPTY_SET;
    }

    public static Map emptyMap() {
        return EMPTY_MAP;
    }

    public static SortedSet emptySortedSet() {
        return unmodifiableSortedSet(new TreeSet());
    }

    public static SortedMap emptySortedMap() {
        return unmodifiableSortedMap(new TreeMap());
    }

    public static Iterator emptyIterator() {
        return new NoWalk();
    }

    public static ListIterator emptyListIterator() {
        return new NoWalk();
    }

    public static Enumeration emptyEnumeration() {
        return new NoWalk();
    }

    public static List singletonList(Object of) {
        return new OneList(of);
    }

    public static Set singleton(Object of) {
        return new OneSet(of);
    }

    public static Map singletonMap(Object key, Object value) {
        Map map = new HashMap();
        map.put(key, value);
        return new OneMap(map);
    }

    public static List nCopies(int count, Object of) {
        if (count < 0) {
            throw new IllegalArgumentException("List length = " + count);
        }
        return new Copies(count, of);
    }

    public static Enumeration enumeration(Collection of) {
        Iterator walk = of.iterator();
        return new Enumeration() {
            @Override
            public boolean hasMoreElements() {
                return walk.hasNext();
            }

            @Override
            public Object nextElement() {
                return walk.next();
            }
        };
    }

    public static ArrayList list(Enumeration of) {
        ArrayList made = new ArrayList();
        while (of.hasMoreElements()) {
            made.add(of.nextElement());
        }
        return made;
    }

    // Orders.

    private static final class Reverse implements Comparator {
        private final Comparator of;

        Reverse(Comparator of) {
            this.of = of;
        }

        @Override
        public int compare(Object one, Object other) {
            return of == null ? ((Comparable) other).compareTo(one) : of.compare(other, one);
        }

        @Override
        public Comparator reversed() {
            return of == null ? new Natural() : of;
        }

        @Override
        public boolean equals(Object other) {
            return other instanceof Reverse && (of == null ? ((Reverse) other).of == null
                : of.equals(((Reverse) other).of));
        }

        @Override
        public int hashCode() {
            return of == null ? 1 : of.hashCode() + 1;
        }
    }

    private static final class Natural implements Comparator {
        @Override
        public int compare(Object one, Object other) {
            return ((Comparable) one).compareTo(other);
        }
    }

    public static Comparator reverseOrder() {
        return new Reverse(null);
    }

    public static Comparator reverseOrder(Comparator of) {
        return of instanceof Reverse ? ((Reverse) of).reversed() : new Reverse(of);
    }

    public static void sort(List of) {
        of.sort(null);
    }

    public static void sort(List of, Comparator by) {
        of.sort(by);
    }

    public static void reverse(List of) {
        for (int at = 0, to = of.size() - 1; at < to; at++, to--) {
            swap(of, at, to);
        }
    }

    public static void swap(List of, int one, int other) {
        of.set(one, of.set(other, of.get(one)));
    }

    public static void shuffle(List of) {
        shuffle(of, new Random());
    }

    public static void shuffle(List of, Random by) {
        for (int at = of.size(); at > 1; at--) {
            swap(of, at - 1, by.nextInt(at));
        }
    }

    public static int binarySearch(List of, Object key) {
        return java.util.Arrays.binarySearch(of.toArray(), key);
    }

    public static int binarySearch(List of, Object key, Comparator by) {
        return java.util.Arrays.binarySearch(of.toArray(), key, by);
    }

    private static Object extreme(Collection of, Comparator by, int sign) {
        Iterator walk = of.iterator();
        Object found = walk.next();
        while (walk.hasNext()) {
            Object next = walk.next();
            int order = by == null ? ((Comparable) next).compareTo(found) : by.compare(next, found);
            found = order * sign > 0 ? next : found;
        }
        return found;
    }

    public static Object max(Collection of) {
        return extreme(of, null, 1);
    }

    public static Object max(Collection of, Comparator by) {
        return extreme(of, by, 1);
    }

    public static Object min(Collection of) {
        return extreme(of, null, -1);
    }

    public static Object min(Collection of, Comparator by) {
        return extreme(of, by, -1);
    }

    public static boolean replaceAll(List of, Object old, Object with) {
        boolean changed = false;
        for (int at = 0; at < of.size(); at++) {
            if (old == null ? of.get(at) == null : old.equals(of.get(at))) {
                of.set(at, with);
                changed = true;
            }
        }
        return changed;
    }

    public static void copy(List to, List of) {
        if (of.size() > to.size()) {
            throw new IndexOutOfBoundsException("Source does not fit in dest");
        }
        for (int at = 0; at < of.size(); at++) {
            to.set(at, of.get(at));
        }
    }

    public static void rotate(List of, int by) {
        int size = of.size();
        if (size == 0) {
            return;
        }
        int first = by % size + (by % size < 0 ? size : 0);
        Object[] all = of.toArray();
        for (int at = 0; first != 0 && at < size; at++) {
            of.set((at + first) % size, all[at]);
        }
    }

    private static boolean isPart(List of, int from, List part) {
        for (int at = 0; at < part.size(); at++) {
            Object next = part.get(at);
            if (!(next == null ? of.get(from + at) == null : next.equals(of.get(from + at)))) {
                return false;
            }
        }
        return true;
    }

    public static int indexOfSubList(List of, List part) {
        for (int at = 0; at <= of.size() - part.size(); at++) {
            if (isPart(of, at, part)) {
                return at;
            }
        }
        return -1;
    }

    public static int lastIndexOfSubList(List of, List part) {
        int at = of.size() - part.size();
        while (at >= 0 && !isPart(of, at, part)) {
            at--;
        }
        return at < 0 ? -1 : at;
    }

    /** A set whose items are a map's keys. */
    private static final class KeySet extends AbstractSet {
        private final Map of;

        KeySet(Map of) {
            this.of = of;
        }

        @Override
        public int size() {
            return of.size();
        }

        @Override
        public boolean contains(Object sought) {
            return of.containsKey(sought);
        }

        @Override
        public boolean add(Object next) {
            return of.put(next, Boolean.TRUE) == null;
        }

        @Override
        public boolean remove(Object sought) {
            return of.remove(sought) != null;
        }

        @Override
        public void clear() {
            of.clear();
        }

        @Override
        public Iterator iterator() {
            return of.keySet().iterator();
        }
    }

    public static Set newSetFromMap(Map of) {
        if (!of.isEmpty()) {
            throw new IllegalArgumentException("Map is non-empty");
        }
        return new KeySet(of);
    }

    public static int frequency(Collection of, Object sought) {
        int count = 0;
        for (Object next : of) {
            count += sought == null ? next == null ? 1 : 0 : sought.equals(next) ? 1 : 0;
        }
        return count;
    }

    public static boolean disjoint(Collection one, Collection other) {
        boolean isTurned = one instanceof Set;
        if (!isTurned && !(other instanceof Set)) {
            int size = one.size();
            int others = other.size();
            if (size == 0 || others == 0) {
                return true;
            }
            isTurned = size > others;
        }
        Collection in = isTurned ? one : other;
        for (Object next : isTurned ? other : one) {
            if (in.contains(next)) {
                return false;
            }
        }
        return true;
    }

    public static boolean addAll(Collection to, Object[] all) {
        boolean changed = false;
        for (int at = 0; at < all.length; at++) {
            changed |= to.add(all[at]);
        }
        return changed;
    }

    public static void fill(List of, Object with) {
        for (int at = 0; at < of.size(); at++) {
            of.set(at, with);
        }
    }
}
