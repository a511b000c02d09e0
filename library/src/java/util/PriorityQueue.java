package java.util;

import java.io.Serializable;
import java.util.function.Consumer;
import java.util.function.Predicate;

/** A heap in an array: no item comes before the one at half its place. */
public class PriorityQueue<E> extends AbstractQueue<E> implements Serializable {
    private Object[] heap;
    private int size;
    private int changes;
    private final Comparator<? super E> by;

    public PriorityQueue() {
        this(11, null);
    }

    public PriorityQueue(int capacity) {
        this(capacity, null);
    }

    public PriorityQueue(Comparator<? super E> by) {
        this(11, by);
    }

    public PriorityQueue(int capacity, Comparator<? super E> by) {
        if (capacity < 1) {
            throw new IllegalArgumentException();
        }
        heap = new Object[capacity];
        this.by = by;
    }

    public PriorityQueue(Collection<? extends E> of) {
        by = of instanceof SortedSet ? ((SortedSet<E>) of).comparator() : of instanceof PriorityQueue ? ((PriorityQueue<E>) of).by : null;
        heap = of.toArray();
        size = heap.length;
        for (int at = 0; at < size; at++) {
            Objects.requireNonNull(heap[at]);
        }
        order();
    }

    public PriorityQueue(PriorityQueue<? extends E> of) {
        this((Collection<? extends E>) of);
    }

    public PriorityQueue(SortedSet<? extends E> of) {
        this((Collection<? extends E>) of);
    }

    private int compare(Object one, Object other) {
        return by == null ? ((Comparable<Object>) one).compareTo(other) : by.compare((E) one, (E) other);
    }

    private void order() {
        for (int at = size / 2 - 1; at >= 0; at--) {
            sink(at, heap[at]);
        }
    }

    /** Puts an item at a place, or above it as far as it comes before what is there. */
    private void rise(int place, Object item) {
        int at = place;
        while (at > 0) {
            int above = at - 1 >>> 1;
            if (compare(item, heap[above]) >= 0) {
                break;
            }
            heap[at] = heap[above];
            at = above;
        }
        heap[at] = item;
    }

    /** Puts an item at a place, or below it as far as something there comes before it. */
    private void sink(int place, Object item) {
        int at = place;
        while (at < size >>> 1) {
            int below = 2 * at + 1;
            if (below + 1 < size && compare(heap[below], heap[below + 1]) > 0) {
                below++;
            }
            if (compare(item, heap[below]) <= 0) {
                break;
            }
            heap[at] = heap[below];
            at = below;
        }
        heap[at] = item;
    }

    @Override
    public boolean add(E next) {
        return offer(next);
    }

    @Override
    public boolean offer(E next) {
        Objects.requireNonNull(next);
        changes++;
        if (size == heap.length) {
            heap = Arrays.copyOf(heap, size < 64 ? 2 * size + 2 : size + size / 2);
        }
        if (by == null && !(next instanceof Comparable)) {
            throw new ClassCastException(next.getClass().getName());
        }
        rise(size, next);
        size++;
        return true;
    }

    @Override
    public E peek() {
        return (E) heap[0];
    }

    @Override
    public E poll() {
        E first = size == 0 ? null : (E) heap[0];
        if (first != null) {
            changes++;
            size--;
            Object last = heap[size];
            heap[size] = null;
            if (size > 0) {
                sink(0, last);
            }
        }
        return first;
    }

    private int indexOf(Object of) {
        for (int at = 0; of != null && at < size; at++) {
            if (of.equals(heap[at])) {
                return at;
            }
        }
        return -1;
    }

    /** Takes away what is at a place; gives what came to stand before that place by it, or null. */
    private E cut(int at) {
        changes++;
        size--;
        Object last = heap[size];
        heap[size] = null;
        if (at == size) {
            return null;
        }
        sink(at, last);
        if (heap[at] == last) {
            rise(at, last);
            if (heap[at] != last) {
                return (E) last;
            }
        }
        return null;
    }

    @Override
    public boolean remove(Object of) {
        int at = indexOf(of);
        if (at >= 0) {
            cut(at);
        }
        return at >= 0;
    }

    @Override
    public boolean contains(Object of) {
        return indexOf(of) >= 0;
    }

    @Override
    public int size() {
        return size;
    }

    @Override
    public void clear() {
        changes++;
        for (int at = 0; at < size; at++) {
            heap[at] = null;
        }
        size = 0;
    }

    @Override
    public boolean removeAll(Collection<?> others) {
        Objects.requireNonNull(others);
        return removeIf(next -> others.contains(next));
    }

    @Override
    public boolean retainAll(Collection<?> others) {
        Objects.requireNonNull(others);
        return removeIf(next -> !others.contains(next));
    }

    @Override
    public boolean removeIf(Predicate<? super E> filter) {
        Objects.requireNonNull(filter);
        Object[] left = new Object[size];
        int count = 0;
        int expected = ++changes;
        for (int at = 0; at < size; at++) {
            if (!filter.test((E) heap[at])) {
                left[count++] = heap[at];
            }
        }
        checkChanges(expected);
        if (count == size) {
            return false;
        }
        System.arraycopy(left, 0, heap, 0, size);
        size = count;
        order();
        return true;
    }

    @Override
    public void forEach(Consumer<? super E> action) {
        Objects.requireNonNull(action);
        int expected = changes;
        for (int at = 0; at < size; at++) {
            action.accept((E) heap[at]);
        }
        checkChanges(expected);
    }

    private void checkChanges(int expected) {
        if (changes != expected) {
            throw new ConcurrentModificationException();
        }
    }

    public Comparator<? super E> comparator() {
        return by;
    }

    @Override
    public Object[] toArray() {
        return Arrays.copyOf(heap, size, Object[].class);
    }

    @Override
    public Iterator<E> iterator() {
        return new Walk();
    }

    /** A walk by places, then over what removals put before them. */
    private final class Walk implements Iterator<E> {
        private final ArrayDeque<E> missed = new ArrayDeque<>();
        private int at;
        private int last = -1;
        private E lastMissed;
        private int expected = changes;

        @Override
        public boolean hasNext() {
            return at < size || !missed.isEmpty();
        }

        @Override
        public E next() {
            checkChanges(expected);
            if (at < size) {
                last = at++;
                return (E) heap[last];
            }
            last = -1;
            lastMissed = missed.poll();
            if (lastMissed == null) {
                throw new NoSuchElementException();
            }
            return lastMissed;
        }

        @Override
        public void remove() {
            checkChanges(expected);
            if (last >= 0) {
                E moved = cut(last);
                last = -1;
                if (moved == null) {
                    at--;
                } else {
                    missed.add(moved);
                }
            } else if (lastMissed != null) {
                for (int place = 0; place < size; place++) {
                    if (heap[place] == lastMissed) {
                        cut(place);
                        break;
                    }
                }
                lastMissed = null;
            } else {
                throw new IllegalStateException();
            }
            expected = changes;
        }
    }
}
