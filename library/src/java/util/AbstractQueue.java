package java.util;

public abstract class AbstractQueue<E> extends AbstractCollection<E> implements Queue<E> {
    protected AbstractQueue() {
    }

    @Override
    public boolean add(E next) {
        if (!offer(next)) {
            throw new IllegalStateException("Queue full");
        }
        return true;
    }

    @Override
    public E remove() {
        E found = poll();
        if (found == null) {
            throw new NoSuchElementException();
        }
        return found;
    }

    @Override
    public E element() {
        E found = peek();
        if (found == null) {
            throw new NoSuchElementException();
        }
        return found;
    }

    @Override
    public void clear() {
        while (poll() != null) {
            continue;
        }
    }
}
