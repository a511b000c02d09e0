package more.java.util;

import java.util.AbstractMap;
import java.util.AbstractSet;
import java.util.Iterator;
import java.util.Map;
import java.util.NoSuchElementException;
import java.util.Set;

/** A map of the profile's own library, with all members of a map. */
final class WrappedMap extends AbstractMap<Object, Object> {
    private final Map<Object, Object> of;

    WrappedMap(Map<Object, Object> of) {
        this.of = of;
    }

    @Override
    public Object get(Object key) {
        return of.get(key);
    }

    @Override
    public boolean containsKey(Object key) {
        return of.containsKey(key);
    }

    @Override
    public Object put(Object key, Object value) {
        return of.put(key, value);
    }

    @Override
    public Object remove(Object key) {
        return of.remove(key);
    }

    @Override
    public int size() {
        return of.size();
    }

    @Override
    public Set<Map.Entry<Object, Object>> entrySet() {
        return new Entries();
    }

    private final class Entries extends AbstractSet<Map.Entry<Object, Object>> {
        @Override
        public int size() {
            return of.size();
        }

        @Override
        public Iterator<Map.Entry<Object, Object>> iterator() {
            return new Walk(of.keySet().toArray());
        }
    }

    private final class Walk implements Iterator<Map.Entry<Object, Object>> {
        private final Object[] keys;
        private int at;

        Walk(Object[] keys) {
            this.keys = keys;
        }

        @Override
        public boolean hasNext() {
            return at < keys.length;
        }

        @Override
        public Map.Entry<Object, Object> next() {
            if (at >= keys.length) {
                throw new NoSuchElementException();
            }
            return new Row(keys[at++]);
        }

        @Override
        public void remove() {
            of.remove(keys[at - 1]);
        }
    }

    private final class Row extends AbstractMap.SimpleEntry<Object, Object> {
        Row(Object key) {
            super(key, of.get(key));
        }

        @Override
        public Object setValue(Object to) {
            of.put(getKey(), to);
            return super.setValue(to);
        }
    }
}
