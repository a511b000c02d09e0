package java.util;

public abstract class AbstractList<E> extends AbstractCollection<E> implements List<E> {
    protected transient int modCount;

    protected AbstractList() {
    }

    public abstract E get(int at);

    public boolean add(E next) {
        add(size(), next);
        return true;
    }

    public E set(int at, E to) {
        throw new UnsupportedOperationException();
    }

    public void add(int at, E next) {
        throw new UnsupportedOperationException();
    }

    public E remove(int at) {
        throw new UnsupportedOperationException();
    }

    public int indexOf(Object sought) {
        ListIterator<E> walk = listIterator();
        while (walk.hasNext()) {
            E next = walk.next();
            if (sought == null ? next == null : sought.equals(next)) {
                return walk.previousIndex();
            }
        }
        return -1;
    }

    public void clear() {
        removeRange(0, size());
    }

    protected void removeRange(int from, int to) {
        ListIterator<E> walk = listIterator(from);
        for (int at = from; at < to; at++) {
            walk.next();
            walk.remove();
        }
    }

    public boolean addAll(int at, Collection<? extends E> others) {
        if (at < 0 || at > size()) {
            throw new IndexOutOfBoundsException("Index: " + at + ", Size: " + size());
        }
        int to = at;
        for (E next : others) {
            add(to++, next);
        }
        return to > at;
    }

    public Iterator<E> iterator() {
        return new Walk(0);
    }

    public List<E> subList(int from, int to) {
        if (from < 0) {
            throw new IndexOutOfBoundsException("fromIndex = " + from);
        }
        if (to > size()) {
            throw new IndexOutOfBoundsException("toIndex = " + to);
        }
        if (from > to) {
            throw new IllegalArgumentException("fromIndex(" + from + ") > toIndex(" + to + ")");
        }
        return new Part<>(this, from, to);
    }

    public int lastIndexOf(Object sought) {
        for (int at = size() - 1; at >= 0; at--) {
            if (sought == null ? get(at) == null : sought.equals(get(at))) {
                return at;
            }
        }
        return -1;
    }

    public ListIterator<E> listIterator() {
        return new Walk(0);
    }

    public ListIterator<E> listIterator(int at) {
        if (at < 0 || at > size()) {
            throw new IndexOutOfBoundsException("Index: " + at);
        }
        return new Walk(at);
    }

    @Override
    public boolean equals(Object other) {
        if (other == this) {
            return true;
        }
        if (!(other instanceof List)) {
            return false;
        }
        Iterator<E> walk = iterator();
        Iterator<?> beside = ((List<?>) other).iterator();
        while (walk.hasNext() && beside.hasNext()) {
            E next = walk.next();
            Object same = beside.next();
            if (!(next == null ? same == null : next.equals(same))) {
                return false;
            }
        }
        return !walk.hasNext() && !beside.hasNext();
    }

    @Override
    public int hashCode() {
        int code = 1;
        for (E next : this) {
            code = 31 * code + (next == null ? 0 : next.hashCode());
        }
        return code;
    }

    private class Walk implements ListIterator<E> {
        private int at;
        private int last = -1;
        private int expected = modCount;

        Walk(int at) {
            this.at = at;
        }

        private void check() {
            if (modCount != expected) {
                throw new ConcurrentModificationException();
            }
        }

        /** The item at a place, beside which the walk stands then. A list may say itself where it ends. */
        private E moved(int place, int to) {
            check();
            try {
                E found = get(place);
                last = place;
                at = to;
                return found;
            } catch (IndexOutOfBoundsException none) {
                check();
                throw new NoSuchElementException();
            }
        }

        @Override
        public boolean hasNext() {
            return at != size();
        }

        @Override
        public E next() {
            return moved(at, at + 1);
        }

        @Override
        public boolean hasPrevious() {
            return at != 0;
        }

        @Override
        public E previous() {
            return moved(at - 1, at - 1);
        }

        @Override
        public int nextIndex() {
            return at;
        }

        @Override
        public int previousIndex() {
            return at - 1;
        }

        @Override
        public void remove() {
            if (last < 0) {
                throw new IllegalStateException();
            }
            check();
            try {
                AbstractList.this.remove(last);
            } catch (IndexOutOfBoundsException none) {
                throw new ConcurrentModificationException();
            }
            at -= last < at ? 1 : 0;
            last = -1;
            expected = modCount;
        }

        @Override
        public void set(E to) {
            if (last < 0) {
                throw new IllegalStateException();
            }
            check();
            try {
                AbstractList.this.set(last, to);
            } catch (IndexOutOfBoundsException none) {
                throw new ConcurrentModificationException();
            }
            expected = modCount;
        }

        @Override
        public void add(E next) {
            check();
            try {
                AbstractList.this.add(at, next);
            } catch (IndexOutOfBoundsException none) {
                throw new ConcurrentModificationException();
            }
            at++;
            last = -1;
            expected = modCount;
        }
    }

    private static final class Part<E> extends AbstractList<E> {
        private final AbstractList<E> of;
        private final int from;
        private int size;

        Part(AbstractList<E> of, int from, int to) {
            this.of = of;
            this.from = from;
            this.size = to - from;
            this.modCount = of.modCount;
        }

        private void check(int at, int most) {
            if (at < 0 || at > most) {
                throw new IndexOutOfBoundsException("Index: " + at + ", Size: " + size);
            }
            checkChanges();
        }

        private void checkChanges() {
            if (of.modCount != modCount) {
                throw new ConcurrentModificationException();
            }
        }

        @Override
        public E get(int at) {
            check(at, size - 1);
            return of.get(from + at);
        }

        @Override
        public E set(int at, E to) {
            check(at, size - 1);
            return of.set(from + at, to);
        }

        @Override
        public int size() {
            checkChanges();
            return size;
        }

        @Override
        public void add(int at, E next) {
            check(at, size);
            of.add(from + at, next);
            modCount = of.modCount;
            size++;
        }

        @Override
        public E remove(int at) {
            check(at, size - 1);
            E found = of.remove(from + at);
            modCount = of.modCount;
            size--;
            return found;
        }

        @Override
        protected void removeRange(int at, int to) {
            checkChanges();
            of.removeRange(from + at, from + to);
            modCount = of.modCount;
            size -= to - at;
        }

        @Override
        public boolean addAll(Collection<? extends E> others) {
            return addAll(size, others);
        }

        @Override
        public boolean addAll(int at, Collection<? extends E> others) {
            check(at, size);
            int many = others.size();
            if (many == 0) {
                return false;
            }
            of.addAll(from + at, others);
            modCount = of.modCount;
            size += many;
            return true;
        }
    }
}
