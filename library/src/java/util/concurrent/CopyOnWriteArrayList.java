package java.util.concurrent;

import java.util.ArrayList;
import java.util.Collection;
import java.util.Collections;
import java.util.Iterator;
import java.util.ListIterator;
import java.util.Objects;
import java.util.function.Consumer;

/** A list whose iterators walk what it was when they were made. */
public class CopyOnWriteArrayList<E> extends ArrayList<E> {
    public CopyOnWriteArrayList() {
    }

    public CopyOnWriteArrayList(Collection<? extends E> of) {
        super(of);
    }

    @Override
    public Iterator<E> iterator() {
        return Collections.unmodifiableList(new ArrayList<>(java.util.Arrays.asList((E[]) toArray()))).iterator();
    }

    @Override
    public ListIterator<E> listIterator() {
        return listIterator(0);
    }

    @Override
    public ListIterator<E> listIterator(int at) {
        return Collections.unmodifiableList(new ArrayList<>(java.util.Arrays.asList((E[]) toArray()))).listIterator(at);
    }

    @Override
    public void forEach(Consumer<? super E> action) {
        Objects.requireNonNull(action);
        for (E next : this) {
            action.accept(next);
        }
    }

    // A wrong place is one of the array's.

    private void check(int at) {
        if (at < 0 || at >= size()) {
            throw new ArrayIndexOutOfBoundsException("Index " + at + " out of bounds for length " + size());
        }
    }

    @Override
    public E get(int at) {
        check(at);
        return super.get(at);
    }

    @Override
    public E set(int at, E to) {
        check(at);
        return super.set(at, to);
    }

    @Override
    public E remove(int at) {
        check(at);
        return super.remove(at);
    }

    public boolean addIfAbsent(E next) {
        return !contains(next) && add(next);
    }
}
