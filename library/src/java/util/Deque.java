package java.util;

public interface Deque<E> extends Queue<E> {
    void addFirst(E next);

    void addLast(E next);

    boolean offerFirst(E next);

    boolean offerLast(E next);

    E removeFirst();

    E removeLast();

    E pollFirst();

    E pollLast();

    E getFirst();

    E getLast();

    E peekFirst();

    E peekLast();

    boolean removeFirstOccurrence(Object of);

    boolean removeLastOccurrence(Object of);

    void push(E next);

    E pop();

    Iterator<E> descendingIterator();
}
