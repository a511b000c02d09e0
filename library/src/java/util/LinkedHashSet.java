package java.util;

public class LinkedHashSet<E> extends more.java.util.LinkedSet<E> {
    public LinkedHashSet() {
    }

    public LinkedHashSet(int capacity) {
        if (capacity < 0) {
            throw new IllegalArgumentException("Illegal initial capacity: " + capacity);
        }
    }

    public LinkedHashSet(Collection<? extends E> of) {
        addAll(of);
    }

    @Override
    public Object clone() {
        return new LinkedHashSet<>(this);
    }
}
