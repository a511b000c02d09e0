package java.util;

/** A set of constants, by their numbers. */
class RegularEnumSet<E extends Enum<E>> extends EnumSet<E> {
    final Class<E> kind;
    final Enum<?>[] all;
    final boolean[] has;
    private int size;

    RegularEnumSet(Class<E> kind, Enum<?>[] all) {
        this.kind = kind;
        this.all = all;
        has = new boolean[all.length];
    }

    final boolean put(int at, boolean to) {
        boolean changed = has[at] != to;
        if (changed) {
            has[at] = to;
            size += to ? 1 : -1;
        }
        return changed;
    }

    final void fill(int from, int to) {
        for (int at = from; at <= to; at++) {
            put(at, true);
        }
    }

    /** The number of one of the constants, or -1. */
    private int place(Object of) {
        if (!(of instanceof Enum)) {
            return -1;
        }
        int at = ((Enum<?>) of).ordinal();
        return at < all.length && all[at] == of ? at : -1;
    }

    @Override
    public int size() {
        return size;
    }

    @Override
    public boolean contains(Object sought) {
        int at = place(sought);
        return at >= 0 && has[at];
    }

    @Override
    public boolean add(E next) {
        Class<?> given = next.getClass();
        int at = place(next);
        if (at < 0) {
            throw new ClassCastException(given + " != " + kind);
        }
        return put(at, true);
    }

    @Override
    public boolean remove(Object sought) {
        int at = place(sought);
        return at >= 0 && put(at, false);
    }

    @Override
    public void clear() {
        for (int at = 0; at < has.length; at++) {
            put(at, false);
        }
    }

    @Override
    public Iterator<E> iterator() {
        return new Walk();
    }

    /** A walk over what was there when it began. */
    private final class Walk implements Iterator<E> {
        private final boolean[] left = has.clone();
        private int at;
        private int last = -1;

        @Override
        public boolean hasNext() {
            while (at < left.length && !left[at]) {
                at++;
            }
            return at < left.length;
        }

        @Override
        public E next() {
            if (!hasNext()) {
                throw new NoSuchElementException();
            }
            last = at++;
            return (E) all[last];
        }

        @Override
        public void remove() {
            if (last < 0) {
                throw new IllegalStateException();
            }
            put(last, false);
            last = -1;
        }
    }
}
