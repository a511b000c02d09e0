package java.util;

import java.io.Serializable;
import java.util.function.Consumer;
import java.util.function.Predicate;
import java.util.function.UnaryOperator;

public class Vector<E> extends AbstractList<E> implements List<E>, RandomAccess, Cloneable, Serializable {
    protected Object[] elementData;
    protected int elementCount;
    protected int capacityIncrement;

    public Vector() {
        this(10);
    }

    public Vector(int capacity) {
        this(capacity, 0);
    }

    public Vector(int capacity, int increment) {
        if (capacity < 0) {
            throw new IllegalArgumentException("Illegal Capacity: " + capacity);
        }
        elementData = new Object[capacity];
        capacityIncrement = increment;
    }

    public Vector(Collection<? extends E> of) {
        elementData = Arrays.copyOf(of.toArray(), of.size(), Object[].class);
        elementCount = elementData.length;
    }

    /** Room for so many, and then for twice as many as there were, or for the increment more. */
    private void makeRoom(int wanted) {
        int length = elementData.length;
        if (wanted > length) {
            int more = capacityIncrement > 0 ? capacityIncrement : length;
            elementData = Arrays.copyOf(elementData, Math.max(wanted, length + more));
        }
    }

    private E item(int at) {
        if (at >= elementCount) {
            throw new ArrayIndexOutOfBoundsException(at + " >= " + elementCount);
        }
        return (E) elementData[at];
    }

    private void cut(int from, int to) {
        System.arraycopy(elementData, to, elementData, from, elementCount - to);
        int left = elementCount - (to - from);
        for (int at = left; at < elementCount; at++) {
            elementData[at] = null;
        }
        elementCount = left;
    }

    private void checkChanges(int expected) {
        if (modCount != expected) {
            throw new ConcurrentModificationException();
        }
    }

    @Override
    public int size() {
        return elementCount;
    }

    public int capacity() {
        return elementData.length;
    }

    public void ensureCapacity(int wanted) {
        if (wanted > 0) {
            modCount++;
            makeRoom(wanted);
        }
    }

    public void trimToSize() {
        modCount++;
        if (elementCount < elementData.length) {
            elementData = Arrays.copyOf(elementData, elementCount);
        }
    }

    public void setSize(int to) {
        modCount++;
        makeRoom(to);
        for (int at = to; at < elementCount; at++) {
            elementData[at] = null;
        }
        elementCount = to;
    }

    @Override
    public E get(int at) {
        return item(at);
    }

    @Override
    public E set(int at, E to) {
        E old = item(at);
        elementData[at] = to;
        return old;
    }

    @Override
    public boolean add(E next) {
        addElement(next);
        return true;
    }

    @Override
    public void add(int at, E next) {
        insertElementAt(next, at);
    }

    @Override
    public E remove(int at) {
        modCount++;
        E old = item(at);
        cut(at, at + 1);
        return old;
    }

    @Override
    public boolean remove(Object of) {
        return removeElement(of);
    }

    @Override
    public void clear() {
        removeAllElements();
    }

    @Override
    protected void removeRange(int from, int to) {
        modCount++;
        cut(from, to);
    }

    @Override
    public boolean addAll(Collection<? extends E> others) {
        return insert(elementCount, others.toArray());
    }

    @Override
    public boolean addAll(int at, Collection<? extends E> others) {
        if (at < 0 || at > elementCount) {
            throw new ArrayIndexOutOfBoundsException(at);
        }
        return insert(at, others.toArray());
    }

    private boolean insert(int at, Object[] all) {
        modCount++;
        makeRoom(elementCount + all.length);
        System.arraycopy(elementData, at, elementData, at + all.length, elementCount - at);
        System.arraycopy(all, 0, elementData, at, all.length);
        elementCount += all.length;
        return all.length > 0;
    }

    @Override
    public boolean removeAll(Collection<?> others) {
        Objects.requireNonNull(others);
        return removeIf(next -> others.contains(next));
    }

    @Override
    public boolean retainAll(Collection<?> others) {
        Objects.requireNonNull(others);
        return removeIf(next -> !others.contains(next));
    }

    @Override
    public boolean removeIf(Predicate<? super E> filter) {
        Objects.requireNonNull(filter);
        int expected = modCount;
        Object[] left = new Object[elementCount];
        int count = 0;
        for (int at = 0; at < left.length; at++) {
            E next = (E) elementData[at];
            if (!filter.test(next)) {
                left[count++] = next;
            }
        }
        checkChanges(expected);
        if (count == left.length) {
            return false;
        }
        modCount++;
        System.arraycopy(left, 0, elementData, 0, left.length);
        elementCount = count;
        return true;
    }

    @Override
    public void forEach(Consumer<? super E> action) {
        Objects.requireNonNull(action);
        int expected = modCount;
        int size = elementCount;
        for (int at = 0; modCount == expected && at < size; at++) {
            action.accept((E) elementData[at]);
        }
        checkChanges(expected);
    }

    @Override
    public void replaceAll(UnaryOperator<E> operator) {
        Objects.requireNonNull(operator);
        int expected = modCount;
        int size = elementCount;
        for (int at = 0; modCount == expected && at < size; at++) {
            elementData[at] = operator.apply((E) elementData[at]);
        }
        checkChanges(expected);
        modCount++;
    }

    @Override
    public void sort(Comparator<? super E> by) {
        int expected = modCount;
        Arrays.sort((E[]) elementData, 0, elementCount, by);
        checkChanges(expected);
        modCount++;
    }

    @Override
    public boolean contains(Object of) {
        return indexOf(of, 0) >= 0;
    }

    @Override
    public int indexOf(Object of) {
        return indexOf(of, 0);
    }

    public int indexOf(Object of, int from) {
        for (int at = from; at < elementCount; at++) {
            if (of == null ? elementData[at] == null : of.equals(elementData[at])) {
                return at;
            }
        }
        return -1;
    }

    @Override
    public int lastIndexOf(Object of) {
        return lastIndexOf(of, elementCount - 1);
    }

    public int lastIndexOf(Object of, int from) {
        if (from >= elementCount) {
            throw new IndexOutOfBoundsException(from + " >= " + elementCount);
        }
        for (int at = from; at >= 0; at--) {
            if (of == null ? elementData[at] == null : of.equals(elementData[at])) {
                return at;
            }
        }
        return -1;
    }

    public void addElement(E next) {
        modCount++;
        makeRoom(elementCount + 1);
        elementData[elementCount++] = next;
    }

    public E elementAt(int at) {
        return item(at);
    }

    public void setElementAt(E to, int at) {
        item(at);
        elementData[at] = to;
    }

    public void insertElementAt(E next, int at) {
        if (at > elementCount) {
            throw new ArrayIndexOutOfBoundsException(at + " > " + elementCount);
        }
        modCount++;
        makeRoom(elementCount + 1);
        System.arraycopy(elementData, at, elementData, at + 1, elementCount - at);
        elementData[at] = next;
        elementCount++;
    }

    public void removeElementAt(int at) {
        item(at);
        modCount++;
        cut(at, at + 1);
    }

    public boolean removeElement(Object of) {
        modCount++;
        int at = indexOf(of);
        if (at < 0) {
            return false;
        }
        removeElementAt(at);
        return true;
    }

    public void removeAllElements() {
        for (int at = 0; at < elementCount; at++) {
            elementData[at] = null;
        }
        elementCount = 0;
        modCount++;
    }

    public E firstElement() {
        if (elementCount == 0) {
            throw new NoSuchElementException();
        }
        return item(0);
    }

    public E lastElement() {
        if (elementCount == 0) {
            throw new NoSuchElementException();
        }
        return item(elementCount - 1);
    }

    public void copyInto(Object[] into) {
        System.arraycopy(elementData, 0, into, 0, elementCount);
    }

    @Override
    public Object[] toArray() {
        return Arrays.copyOf(elementData, elementCount);
    }

    public Enumeration<E> elements() {
        return new Enumeration<E>() {
            private int at;

            @Override
            public boolean hasMoreElements() {
                return at < elementCount;
            }

            @Override
            public E nextElement() {
                if (at >= elementCount) {
                    throw new NoSuchElementException("Vector Enumeration");
                }
                return item(at++);
            }
        };
    }

    @Override
    public Object clone() {
        return new Vector<>(this);
    }
}
