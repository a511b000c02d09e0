package more.java.util;

import java.util.AbstractList;
import java.util.List;

/** A list that goes by another one's get, set, add, remove and size, with all members of a list. */
final class WrappedList extends AbstractList<Object> {
    private final List<Object> of;

    WrappedList(List<Object> of) {
        this.of = of;
    }

    @Override
    public Object get(int at) {
        return of.get(at);
    }

    @Override
    public int size() {
        return of.size();
    }

    @Override
    public Object set(int at, Object to) {
        return of.set(at, to);
    }

    @Override
    public void add(int at, Object next) {
        modCount++;
        of.add(at, next);
    }

    @Override
    public Object remove(int at) {
        modCount++;
        return of.remove(at);
    }

    <E> List<E> part(int from, int to) {
        return (List<E>) subList(from, to);
    }

    String toString(Object itself) {
        StringBuilder made = new StringBuilder("[");
        for (int at = 0; at < of.size(); at++) {
            made.append(at > 0 ? ", " : "").append(of.get(at) == itself ? "(this Collection)" : of.get(at));
        }
        return made.append("]").toString();
    }
}
