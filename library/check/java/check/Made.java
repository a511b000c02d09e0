package check;

import java.io.FilterInputStream;
import java.io.InputStream;
import java.util.AbstractCollection;
import java.util.AbstractList;
import java.util.AbstractMap;
import java.util.AbstractQueue;
import java.util.AbstractSequentialList;
import java.util.AbstractSet;
import java.util.ArrayDeque;
import java.util.ArrayList;
import java.util.Collection;
import java.util.HashMap;
import java.util.HashSet;
import java.util.Iterator;
import java.util.LinkedList;
import java.util.List;
import java.util.ListIterator;
import java.util.Map;
import java.util.Set;

/** What can be made of the abstract classes: each does what its class leaves open, by a collection of its own. */
final class Made {
    private Made() {
    }

    static final class OfList extends AbstractList<Object> {
        private final List<Object> all;

        OfList(List<Object> of) {
            all = new ArrayList<>(of);
        }

        @Override
        public Object get(int at) {
            return all.get(at);
        }

        @Override
        public int size() {
            return all.size();
        }

        @Override
        public Object set(int at, Object to) {
            return all.set(at, to);
        }

        @Override
        public void add(int at, Object next) {
            modCount++;
            all.add(at, next);
        }

        @Override
        public Object remove(int at) {
            modCount++;
            return all.remove(at);
        }
    }

    static final class OfSequence extends AbstractSequentialList<Object> {
        private final List<Object> all;

        OfSequence(List<Object> of) {
            all = new LinkedList<>(of);
        }

        @Override
        public ListIterator<Object> listIterator(int at) {
            return all.listIterator(at);
        }

        @Override
        public int size() {
            return all.size();
        }
    }

    static final class OfCollection extends AbstractCollection<Object> {
        private final List<Object> all;

        OfCollection(List<Object> of) {
            all = new ArrayList<>(of);
        }

        @Override
        public Iterator<Object> iterator() {
            return all.iterator();
        }

        @Override
        public int size() {
            return all.size();
        }

        @Override
        public boolean add(Object next) {
            return all.add(next);
        }
    }

    static final class OfSet extends AbstractSet<Object> {
        private final Set<Object> all;

        OfSet(Set<Object> of) {
            all = new HashSet<>(of);
        }

        @Override
        public Iterator<Object> iterator() {
            return all.iterator();
        }

        @Override
        public int size() {
            return all.size();
        }

        @Override
        public boolean add(Object next) {
            return all.add(next);
        }
    }

    static final class OfMap extends AbstractMap<Object, Object> {
        private final Map<Object, Object> all;

        OfMap(Map<Object, Object> of) {
            all = new HashMap<>(of);
        }

        @Override
        public Set<Map.Entry<Object, Object>> entrySet() {
            return all.entrySet();
        }

        @Override
        public Object put(Object key, Object value) {
            return all.put(key, value);
        }
    }

    static final class OfQueue extends AbstractQueue<Object> {
        private final ArrayDeque<Object> all = new ArrayDeque<>();

        OfQueue(Collection<Object> of) {
            for (Object next : of) {
                if (next != null) {
                    all.add(next);
                }
            }
        }

        @Override
        public boolean offer(Object next) {
            return all.offer(next);
        }

        @Override
        public Object poll() {
            return all.poll();
        }

        @Override
        public Object peek() {
            return all.peek();
        }

        @Override
        public Iterator<Object> iterator() {
            return all.iterator();
        }

        @Override
        public int size() {
            return all.size();
        }
    }

    static final class Input extends FilterInputStream {
        Input(InputStream of) {
            super(of);
        }
    }
}
