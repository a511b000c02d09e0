package java.util;

public abstract class AbstractSequentialList<E> extends AbstractList<E> {
    protected AbstractSequentialList() {
    }

    public abstract ListIterator<E> listIterator(int at);

    @Override
    public E get(int at) {
        try {
            return listIterator(at).next();
        } catch (NoSuchElementException none) {
            throw new IndexOutOfBoundsException("Index: " + at);
        }
    }

    @Override
    public E set(int at, E to) {
        try {
            ListIterator<E> walk = listIterator(at);
            E old = walk.next();
            walk.set(to);
            return old;
        } catch (NoSuchElementException none) {
            throw new IndexOutOfBoundsException("Index: " + at);
        }
    }

    @Override
    public void add(int at, E next) {
        listIterator(at).add(next);
    }

    @Override
    public E remove(int at) {
        try {
            ListIterator<E> walk = listIterator(at);
            E old = walk.next();
            walk.remove();
            return old;
        } catch (NoSuchElementException none) {
            throw new IndexOutOfBoundsException("Index: " + at);
        }
    }

    @Override
    public boolean addAll(int at, Collection<? extends E> others) {
        ListIterator<E> walk = listIterator(at);
        boolean changed = false;
        for (E next : others) {
            walk.add(next);
            changed = true;
        }
        return changed;
    }

    @Override
    public Iterator<E> iterator() {
        return listIterator();
    }

    @Override
    public ListIterator<E> listIterator() {
        return listIterator(0);
    }
}
