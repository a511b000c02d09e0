package java.util;

import java.io.Serializable;

public class LinkedList<E> extends AbstractSequentialList<E> implements List<E>, Deque<E>, Cloneable, Serializable {
    private static final class Node<E> {
        E value;
        Node<E> before;
        Node<E> after;
    }

    private final Node<E> ring = new Node<>();
    private int size;

    public LinkedList() {
        ring.before = ring;
        ring.after = ring;
    }

    public LinkedList(Collection<? extends E> of) {
        this();
        addAll(of);
    }

    private void putBefore(Node<E> node, E value) {
        Node<E> made = new Node<>();
        made.value = value;
        made.before = node.before;
        made.after = node;
        node.before.after = made;
        node.before = made;
        size++;
        modCount++;
    }

    private E unlink(Node<E> node) {
        if (node == ring) {
            throw new NoSuchElementException();
        }
        node.before.after = node.after;
        node.after.before = node.before;
        size--;
        modCount++;
        return node.value;
    }

    private Node<E> node(int at) {
        Node<E> node = ring;
        if (at < size / 2) {
            for (int next = 0; next <= at; next++) {
                node = node.after;
            }
        } else {
            for (int next = size; next > at; next--) {
                node = node.before;
            }
        }
        return node;
    }

    private void check(int at, int most) {
        if (at < 0 || at > most) {
            throw new IndexOutOfBoundsException("Index: " + at + ", Size: " + size);
        }
    }

    @Override
    public int size() {
        return size;
    }

    @Override
    public boolean add(E next) {
        putBefore(ring, next);
        return true;
    }

    @Override
    public E get(int at) {
        check(at, size - 1);
        return node(at).value;
    }

    @Override
    public E set(int at, E to) {
        check(at, size - 1);
        Node<E> node = node(at);
        E old = node.value;
        node.value = to;
        return old;
    }

    @Override
    public void add(int at, E next) {
        check(at, size);
        putBefore(node(at), next);
    }

    @Override
    public E remove(int at) {
        check(at, size - 1);
        return unlink(node(at));
    }

    @Override
    public boolean addAll(Collection<? extends E> others) {
        return addAll(size, others);
    }

    @Override
    public boolean addAll(int at, Collection<? extends E> others) {
        check(at, size);
        Object[] all = others.toArray();
        Node<E> node = node(at);
        for (int next = 0; next < all.length; next++) {
            putBefore(node, (E) all[next]);
        }
        return all.length > 0;
    }

    @Override
    public void clear() {
        ring.before = ring;
        ring.after = ring;
        size = 0;
        modCount++;
    }

    @Override
    public void addFirst(E next) {
        putBefore(ring.after, next);
    }

    @Override
    public void addLast(E next) {
        putBefore(ring, next);
    }

    @Override
    public boolean offerFirst(E next) {
        addFirst(next);
        return true;
    }

    @Override
    public boolean offerLast(E next) {
        addLast(next);
        return true;
    }

    @Override
    public E removeFirst() {
        return unlink(ring.after);
    }

    @Override
    public E removeLast() {
        return unlink(ring.before);
    }

    @Override
    public E pollFirst() {
        return size == 0 ? null : removeFirst();
    }

    @Override
    public E pollLast() {
        return size == 0 ? null : removeLast();
    }

    @Override
    public E getFirst() {
        if (size == 0) {
            throw new NoSuchElementException();
        }
        return ring.after.value;
    }

    @Override
    public E getLast() {
        if (size == 0) {
            throw new NoSuchElementException();
        }
        return ring.before.value;
    }

    @Override
    public E peekFirst() {
        return size == 0 ? null : getFirst();
    }

    @Override
    public E peekLast() {
        return size == 0 ? null : getLast();
    }

    @Override
    public boolean removeFirstOccurrence(Object of) {
        return remove(of);
    }

    @Override
    public boolean removeLastOccurrence(Object of) {
        for (Node<E> node = ring.before; node != ring; node = node.before) {
            if (of == null ? node.value == null : of.equals(node.value)) {
                unlink(node);
                return true;
            }
        }
        return false;
    }

    @Override
    public boolean offer(E next) {
        return add(next);
    }

    @Override
    public E remove() {
        return removeFirst();
    }

    @Override
    public E poll() {
        return pollFirst();
    }

    @Override
    public E element() {
        return getFirst();
    }

    @Override
    public E peek() {
        return peekFirst();
    }

    @Override
    public void push(E next) {
        addFirst(next);
    }

    @Override
    public E pop() {
        return removeFirst();
    }

    @Override
    public Iterator<E> descendingIterator() {
        ListIterator<E> walk = listIterator(size);
        return new Iterator<E>() {
            @Override
            public boolean hasNext() {
                return walk.hasPrevious();
            }

            @Override
            public E next() {
                return walk.previous();
            }

            @Override
            public void remove() {
                walk.remove();
            }
        };
    }

    @Override
    public Object clone() {
        return new LinkedList<>(this);
    }

    @Override
    public ListIterator<E> listIterator(int at) {
        check(at, size);
        return new Walk(at);
    }

    private final class Walk implements ListIterator<E> {
        private Node<E> ahead;
        private Node<E> last;
        private int at;
        private int expected = modCount;

        Walk(int at) {
            this.at = at;
            ahead = node(at);
        }

        private void check() {
            if (modCount != expected) {
                throw new ConcurrentModificationException();
            }
        }

        @Override
        public boolean hasNext() {
            return at < size;
        }

        @Override
        public E next() {
            check();
            if (at >= size) {
                throw new NoSuchElementException();
            }
            last = ahead;
            ahead = ahead.after;
            at++;
            return last.value;
        }

        @Override
        public boolean hasPrevious() {
            return at > 0;
        }

        @Override
        public E previous() {
            check();
            if (at <= 0) {
                throw new NoSuchElementException();
            }
            ahead = ahead.before;
            last = ahead;
            at--;
            return last.value;
        }

        @Override
        public int nextIndex() {
            return at;
        }

        @Override
        public int previousIndex() {
            return at - 1;
        }

        @Override
        public void remove() {
            check();
            if (last == null) {
                throw new IllegalStateException();
            }
            if (ahead == last) {
                ahead = last.after;
            } else {
                at--;
            }
            unlink(last);
            last = null;
            expected = modCount;
        }

        @Override
        public void set(E to) {
            if (last == null) {
                throw new IllegalStateException();
            }
            check();
            last.value = to;
        }

        @Override
        public void add(E next) {
            check();
            putBefore(ahead, next);
            last = null;
            at++;
            expected = modCount;
        }
    }
}
