package java.util;

import java.io.Serializable;
import java.util.function.Consumer;
import java.util.function.Predicate;

/** A ring in an array, with at least one place free; what an iterator sees of changes follows from the places. */
public class ArrayDeque<E> extends AbstractCollection<E> implements Deque<E>, Cloneable, Serializable {
    private Object[] ring;
    private int head;
    /** The place behind the last item. */
    private int tail;

    public ArrayDeque() {
        ring = new Object[17];
    }

    public ArrayDeque(int count) {
        ring = new Object[count < 1 ? 1 : count + 1];
    }

    public ArrayDeque(Collection<? extends E> of) {
        this(of.size());
        of.forEach(next -> addLast(next));
    }

    private int after(int at) {
        return at + 1 == ring.length ? 0 : at + 1;
    }

    private int before(int at) {
        return at == 0 ? ring.length - 1 : at - 1;
    }

    /** How many places there are from one to another one, around the ring. */
    private int between(int from, int to) {
        return to < from ? to - from + ring.length : to - from;
    }

    /** Makes the ring larger, by so many places at the least. What is from the head on moves to its end if the ring is closed, or goes around. */
    private void grow(int wanted) {
        int old = ring.length;
        int more = Math.max(old < 64 ? old + 2 : old >> 1, wanted);
        boolean goesAround = tail < head || tail == head && ring[head] != null;
        ring = Arrays.copyOf(ring, old + more);
        if (goesAround) {
            System.arraycopy(ring, head, ring, head + more, old - head);
            for (int at = head; at < head + more; at++) {
                ring[at] = null;
            }
            head += more;
        }
    }

    private static <E> E some(E of) {
        if (of == null) {
            throw new NoSuchElementException();
        }
        return of;
    }

    @Override
    public int size() {
        return between(head, tail);
    }

    @Override
    public boolean isEmpty() {
        return head == tail;
    }

    @Override
    public void addFirst(E next) {
        Objects.requireNonNull(next);
        head = before(head);
        ring[head] = next;
        if (head == tail) {
            grow(1);
        }
    }

    @Override
    public void addLast(E next) {
        Objects.requireNonNull(next);
        ring[tail] = next;
        tail = after(tail);
        if (head == tail) {
            grow(1);
        }
    }

    @Override
    public boolean addAll(Collection<? extends E> others) {
        int size = size();
        int wanted = size + others.size() + 1 - ring.length;
        if (wanted > 0) {
            grow(wanted);
        }
        others.forEach(next -> addLast(next));
        return size() > size;
    }

    @Override
    public E pollFirst() {
        E found = (E) ring[head];
        if (found != null) {
            ring[head] = null;
            head = after(head);
        }
        return found;
    }

    @Override
    public E pollLast() {
        int last = before(tail);
        E found = (E) ring[last];
        if (found != null) {
            ring[last] = null;
            tail = last;
        }
        return found;
    }

    @Override
    public E peekFirst() {
        return (E) ring[head];
    }

    @Override
    public E peekLast() {
        return (E) ring[before(tail)];
    }

    @Override
    public E removeFirst() {
        return some(pollFirst());
    }

    @Override
    public E removeLast() {
        return some(pollLast());
    }

    @Override
    public E getFirst() {
        return some(peekFirst());
    }

    @Override
    public E getLast() {
        return some(peekLast());
    }

    @Override
    public boolean offerFirst(E next) {
        addFirst(next);
        return true;
    }

    @Override
    public boolean offerLast(E next) {
        addLast(next);
        return true;
    }

    @Override
    public boolean add(E next) {
        addLast(next);
        return true;
    }

    @Override
    public boolean offer(E next) {
        addLast(next);
        return true;
    }

    @Override
    public E remove() {
        return removeFirst();
    }

    @Override
    public E poll() {
        return pollFirst();
    }

    @Override
    public E element() {
        return getFirst();
    }

    @Override
    public E peek() {
        return peekFirst();
    }

    @Override
    public void push(E next) {
        addFirst(next);
    }

    @Override
    public E pop() {
        return removeFirst();
    }

    @Override
    public boolean contains(Object of) {
        return of != null && first(of) >= 0;
    }

    @Override
    public boolean remove(Object of) {
        return removeFirstOccurrence(of);
    }

    private int first(Object of) {
        for (int at = head; at != tail; at = after(at)) {
            if (of.equals(ring[at])) {
                return at;
            }
        }
        return -1;
    }

    @Override
    public boolean removeFirstOccurrence(Object of) {
        int at = of == null ? -1 : first(of);
        if (at >= 0) {
            cut(at);
        }
        return at >= 0;
    }

    @Override
    public boolean removeLastOccurrence(Object of) {
        for (int at = tail; of != null && at != head;) {
            at = before(at);
            if (of.equals(ring[at])) {
                cut(at);
                return true;
            }
        }
        return false;
    }

    /** Takes an item away: those on its shorter side move. Tells whether these are the ones behind it. */
    private boolean cut(int place) {
        int front = between(head, place);
        int behind = between(place, tail) - 1;
        int last = ring.length - 1;
        if (front < behind) {
            if (head <= place) {
                System.arraycopy(ring, head, ring, head + 1, front);
            } else {
                System.arraycopy(ring, 0, ring, 1, place);
                ring[0] = ring[last];
                System.arraycopy(ring, head, ring, head + 1, last - head);
            }
            ring[head] = null;
            head = after(head);
            return false;
        }
        tail = before(tail);
        if (place <= tail) {
            System.arraycopy(ring, place + 1, ring, place, behind);
        } else {
            System.arraycopy(ring, place + 1, ring, place, last - place);
            ring[last] = ring[0];
            System.arraycopy(ring, 1, ring, 0, tail);
        }
        ring[tail] = null;
        return true;
    }

    @Override
    public void clear() {
        empty(head);
        head = 0;
        tail = 0;
    }

    /** Leaves nothing from a place on. */
    private void empty(int from) {
        for (int at = from; at != tail; at = after(at)) {
            ring[at] = null;
        }
        tail = from;
    }

    @Override
    public boolean removeAll(Collection<?> others) {
        Objects.requireNonNull(others);
        return removeIf(next -> others.contains(next));
    }

    @Override
    public boolean retainAll(Collection<?> others) {
        Objects.requireNonNull(others);
        return removeIf(next -> !others.contains(next));
    }

    @Override
    public boolean removeIf(Predicate<? super E> filter) {
        Objects.requireNonNull(filter);
        Object[] all = toArray();
        int end = tail;
        int count = 0;
        for (int at = 0; at < all.length; at++) {
            E next = (E) all[at];
            if (!filter.test(next)) {
                all[count++] = next;
            }
        }
        if (end != tail) {
            throw new ConcurrentModificationException();
        }
        int to = head;
        for (int at = 0; at < count; at++) {
            ring[to] = all[at];
            to = after(to);
        }
        empty(to);
        return count < all.length;
    }

    @Override
    public void forEach(Consumer<? super E> action) {
        Objects.requireNonNull(action);
        int end = tail;
        for (int at = head; at != end; at = after(at)) {
            action.accept((E) ring[at]);
        }
        if (end != tail) {
            throw new ConcurrentModificationException();
        }
    }

    @Override
    public Iterator<E> iterator() {
        return new Walk();
    }

    @Override
    public Iterator<E> descendingIterator() {
        return new BackWalk();
    }

    @Override
    public Object[] toArray() {
        Object[] made = new Object[size()];
        int at = head;
        for (int next = 0; next < made.length; next++) {
            made[next] = ring[at];
            at = after(at);
        }
        return made;
    }

    @Override
    public <T> T[] toArray(T[] into) {
        Object[] all = toArray();
        T[] made = into.length < all.length ? Arrays.copyOf(into, all.length) : into;
        System.arraycopy(all, 0, made, 0, all.length);
        if (all.length < made.length) {
            made[all.length] = null;
        }
        return made;
    }

    @Override
    public Object clone() {
        ArrayDeque<E> made = new ArrayDeque<>();
        made.ring = Arrays.copyOf(ring, ring.length);
        made.head = head;
        made.tail = tail;
        return made;
    }

    private class Walk implements Iterator<E> {
        int at = head;
        int last = -1;
        private int left = size();

        @Override
        public boolean hasNext() {
            return left > 0;
        }

        @Override
        public E next() {
            if (left <= 0) {
                throw new NoSuchElementException();
            }
            E found = (E) ring[at];
            if (found == null) {
                throw new ConcurrentModificationException();
            }
            last = at;
            go();
            left--;
            return found;
        }

        void go() {
            at = after(at);
        }

        void back(boolean movedBehind) {
            at = movedBehind ? before(at) : at;
        }

        @Override
        public void remove() {
            if (last < 0) {
                throw new IllegalStateException();
            }
            back(cut(last));
            last = -1;
        }
    }

    private final class BackWalk extends Walk {
        BackWalk() {
            at = before(tail);
        }

        @Override
        void go() {
            at = before(at);
        }

        @Override
        void back(boolean movedBehind) {
            at = movedBehind ? at : after(at);
        }
    }
}
