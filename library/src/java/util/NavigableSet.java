package java.util;

public interface NavigableSet<E> extends SortedSet<E> {
    E lower(E of);

    E floor(E of);

    E ceiling(E of);

    E higher(E of);

    E pollFirst();

    E pollLast();

    NavigableSet<E> descendingSet();

    Iterator<E> descendingIterator();

    NavigableSet<E> subSet(E from, boolean hasFrom, E to, boolean hasTo);

    NavigableSet<E> headSet(E to, boolean hasTo);

    NavigableSet<E> tailSet(E from, boolean hasFrom);
}
