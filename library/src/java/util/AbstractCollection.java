package java.util;

public abstract class AbstractCollection<E> implements Collection<E> {
    protected AbstractCollection() {
    }

    public abstract Iterator<E> iterator();

    public abstract int size();

    public boolean isEmpty() {
        return size() == 0;
    }

    public boolean contains(Object sought) {
        Iterator<E> walk = iterator();
        while (walk.hasNext()) {
            E next = walk.next();
            if (sought == null ? next == null : sought.equals(next)) {
                return true;
            }
        }
        return false;
    }

    public Object[] toArray() {
        Object[] made = new Object[size()];
        int at = 0;
        Iterator<E> walk = iterator();
        while (walk.hasNext()) {
            made = at == made.length ? Arrays.copyOf(made, at * 2 + 1) : made;
            made[at++] = walk.next();
        }
        return at == made.length ? made : Arrays.copyOf(made, at);
    }

    public <T> T[] toArray(T[] into) {
        int size = size();
        T[] made = into.length < size ? Arrays.copyOf(into, size) : into;
        int at = 0;
        Iterator<E> walk = iterator();
        while (walk.hasNext()) {
            made = at == made.length ? Arrays.copyOf(made, at * 2 + 1) : made;
            made[at++] = (T) walk.next();
        }
        if (made != into && at < made.length) {
            return Arrays.copyOf(made, at);
        }
        if (at < made.length) {
            made[at] = null;
        }
        return made;
    }

    public boolean add(E next) {
        throw new UnsupportedOperationException();
    }

    public boolean remove(Object sought) {
        Iterator<E> walk = iterator();
        while (walk.hasNext()) {
            E next = walk.next();
            if (sought == null ? next == null : sought.equals(next)) {
                walk.remove();
                return true;
            }
        }
        return false;
    }

    public boolean containsAll(Collection<?> others) {
        for (Object next : others) {
            if (!contains(next)) {
                return false;
            }
        }
        return true;
    }

    public boolean addAll(Collection<? extends E> others) {
        boolean changed = false;
        for (E next : others) {
            changed |= add(next);
        }
        return changed;
    }

    public boolean removeAll(Collection<?> others) {
        return keep(others, false);
    }

    public boolean retainAll(Collection<?> others) {
        return keep(others, true);
    }

    private boolean keep(Collection<?> others, boolean kept) {
        if (others == null) {
            throw new NullPointerException();
        }
        boolean changed = false;
        Iterator<E> walk = iterator();
        while (walk.hasNext()) {
            if (others.contains(walk.next()) != kept) {
                walk.remove();
                changed = true;
            }
        }
        return changed;
    }

    public void clear() {
        Iterator<E> walk = iterator();
        while (walk.hasNext()) {
            walk.next();
            walk.remove();
        }
    }

    @Override
    public String toString() {
        StringBuilder made = new StringBuilder("[");
        Iterator<E> walk = iterator();
        while (walk.hasNext()) {
            E next = walk.next();
            made.append(next == this ? "(this Collection)" : String.valueOf(next));
            made.append(walk.hasNext() ? ", " : "");
        }
        return made.append("]").toString();
    }
}
