package java.util;

public interface Queue<E> extends Collection<E> {
    boolean add(E next);

    boolean offer(E next);

    E remove();

    E poll();

    E element();

    E peek();
}
