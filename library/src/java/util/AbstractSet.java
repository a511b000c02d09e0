package java.util;

public abstract class AbstractSet<E> extends AbstractCollection<E> implements Set<E> {
    protected AbstractSet() {
    }

    @Override
    public boolean equals(Object other) {
        if (other == this) {
            return true;
        }
        if (!(other instanceof Set) || ((Collection<?>) other).size() != size()) {
            return false;
        }
        try {
            return containsAll((Collection<?>) other);
        } catch (ClassCastException | NullPointerException unlike) {
            return false;
        }
    }

    @Override
    public int hashCode() {
        int code = 0;
        for (E next : this) {
            code += next == null ? 0 : next.hashCode();
        }
        return code;
    }

    @Override
    public boolean removeAll(Collection<?> others) {
        boolean changed = false;
        if (size() > others.size()) {
            for (Object next : others) {
                changed |= remove(next);
            }
            return changed;
        }
        Iterator<E> walk = iterator();
        while (walk.hasNext()) {
            if (others.contains(walk.next())) {
                walk.remove();
                changed = true;
            }
        }
        return changed;
    }
}
