package more.java.util;

import java.util.Collection;
import java.util.Iterator;
import java.util.Set;

/** java.util.HashSet whole, which is walked in Java's order. */
public class HashSet<E> extends java.util.HashSet<E> implements more.java.util.Collection<E> {
    private static final Object HERE = new Object();

    private final HashMap<E, Object> map;

    public HashSet() {
        map = new HashMap<>();
    }

    public HashSet(int capacity) {
        map = new HashMap<>(capacity);
    }

    public HashSet(Collection<? extends E> of) {
        map = new HashMap<>(Math.max(of.size() + of.size() / 3 + 1, 16));
        addAll(of);
    }

    HashSet(HashMap<E, Object> map) {
        this.map = map;
    }

    @Override
    public int size() {
        return map.size();
    }

    @Override
    public boolean isEmpty() {
        return map.isEmpty();
    }

    @Override
    public boolean contains(Object sought) {
        return map.containsKey(sought);
    }

    @Override
    public boolean add(E next) {
        return map.put(next, HERE) == null;
    }

    @Override
    public boolean remove(Object sought) {
        return map.remove(sought) == HERE;
    }

    @Override
    public void clear() {
        map.clear();
    }

    @Override
    public Iterator<E> iterator() {
        return map.keySet().iterator();
    }

    @Override
    public Object[] toArray() {
        return map.keySet().toArray();
    }

    @Override
    public <T> T[] toArray(T[] into) {
        return map.keySet().toArray(into);
    }

    @Override
    public boolean containsAll(Collection<?> others) {
        return map.keySet().containsAll(others);
    }

    @Override
    public boolean addAll(Collection<? extends E> others) {
        boolean changed = false;
        for (E next : others) {
            changed |= add(next);
        }
        return changed;
    }

    @Override
    public boolean removeAll(Collection<?> others) {
        return map.keySet().removeAll(others);
    }

    @Override
    public boolean retainAll(Collection<?> others) {
        return map.keySet().retainAll(others);
    }

    @Override
    public Object clone() {
        return new HashSet<>((HashMap<E, Object>) map.clone());
    }

    @Override
    public boolean equals(Object other) {
        return other == this || map.keySet().equals(other);
    }

    @Override
    public int hashCode() {
        return map.keySet().hashCode();
    }

    @Override
    public String toString() {
        return map.keySet().toString();
    }

    // For a variable of the profile's own class.

    public static Object clone(java.util.HashSet of) {
        return of instanceof HashSet ? ((HashSet) of).clone() : new HashSet(of);
    }
}
