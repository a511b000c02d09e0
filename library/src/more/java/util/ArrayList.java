package more.java.util;

import java.util.AbstractList;
import java.util.Collection;
import java.util.Comparator;
import java.util.ConcurrentModificationException;
import java.util.Iterator;
import java.util.List;
import java.util.ListIterator;
import java.util.NoSuchElementException;
import java.util.function.Consumer;
import java.util.function.UnaryOperator;

/** java.util.ArrayList whole: what the profile's own has not, and what it answers otherwise than Java. */
public class ArrayList<E> extends java.util.ArrayList<E> implements more.java.util.List<E>, java.util.RandomAccess {
    /** What is told before the list gets longer or shorter: so no change has to be counted. Not private, since a class inside would call a method for it. */
    Watcher watchers;
    /** Whether a walk was left on its way: from then on each one knows where it stands. */
    boolean knowsPlaces;
    /** How many items Java's array had room for when it was last looked at; -1 where it wasn't made yet. What was added since makes it larger. */
    private int capacity = -1;
    /** The most items that there were before the list got shorter. */
    private int most;

    public ArrayList() {
    }

    public ArrayList(int capacity) {
        if (capacity < 0) {
            throw new IllegalArgumentException("Illegal Capacity: " + capacity);
        }
        this.capacity = capacity;
    }

    public ArrayList(Collection<? extends E> of) {
        Object[] all = of.toArray();
        for (int at = 0; at < all.length; at++) {
            super.add((E) all[at]);
        }
        capacity = all.length;
    }

    /** Makes the room that there is by now; behind it, room for so many. */
    private void makeRoom(int wanted) {
        int size = Math.max(most, super.size());
        if (capacity < 0 && size > 0) {
            capacity = 10;
        }
        while (capacity >= 0 && capacity < size) {
            capacity += Math.max(1, capacity >> 1);
        }
        if (wanted > Math.max(capacity, 0)) {
            capacity = capacity < 0 ? Math.max(10, wanted) : Math.max(wanted, capacity + (capacity >> 1));
        }
    }

    @Override
    public boolean add(E next) {
        if (watchers != null) {
            change();
        }
        return super.add(next);
    }

    @Override
    public void add(int at, E next) {
        if (watchers != null && at >= 0 && at <= super.size()) {
            change();
        }
        try {
            super.add(at, next);
        } catch (IndexOutOfBoundsException none) {
            throw outside(at);
        }
    }

    @Override
    public E remove(int at) {
        if (watchers != null || super.size() > most) {
            shorten(at);
        }
        try {
            return super.remove(at);
        } catch (IndexOutOfBoundsException none) {
            throw outside(at);
        }
    }

    @Override
    public void clear() {
        shorten();
        super.clear();
    }

    /** What is to be done before an item goes, where there is one at this place. */
    private void shorten(int at) {
        if (at >= 0 && at < super.size()) {
            shorten();
        }
    }

    /** What is to be done before the list gets shorter. */
    private void shorten() {
        change();
        most = Math.max(most, super.size());
    }

    /** What is to be done before the list gets longer or shorter. */
    private void change() {
        for (Watcher watcher = watchers; watcher != null; watcher = watcher.other) {
            watcher.leave();
        }
        watchers = null;
    }

    private void watch(Watcher watcher) {
        watcher.other = watchers;
        watchers = watcher;
    }

    /** What tells at its end whether the list changed. */
    private Still still() {
        Still made = new Still();
        watch(made);
        return made;
    }

    // What the array of Java's list has, whatever a subclass says.

    private E item(int at) {
        return super.get(at);
    }

    private int count() {
        return super.size();
    }

    private IndexOutOfBoundsException outside(int at) {
        return new IndexOutOfBoundsException("Index: " + at + ", Size: " + super.size());
    }

    @Override
    public int indexOf(Object sought) {
        int size = super.size();
        if (sought == null) {
            for (int at = 0; at < size; at++) {
                if (super.get(at) == null) {
                    return at;
                }
            }
            return -1;
        }
        for (int at = 0; at < size; at++) {
            if (sought.equals(super.get(at))) {
                return at;
            }
        }
        return -1;
    }

    @Override
    public boolean contains(Object sought) {
        return indexOf(sought) >= 0;
    }

    @Override
    public boolean remove(Object sought) {
        int at = indexOf(sought);
        if (at < 0) {
            return false;
        }
        shorten();
        super.remove(at);
        return true;
    }

    @Override
    public boolean containsAll(Collection<?> others) {
        return Walked.containsAll(this, others);
    }

    @Override
    public boolean addAll(Collection<? extends E> others) {
        return addAll(super.size(), others);
    }

    @Override
    public boolean addAll(int at, Collection<? extends E> others) {
        if (at < 0 || at > super.size()) {
            throw outside(at);
        }
        Object[] all = others.toArray();
        change();
        makeRoom(all.length == 0 ? 0 : super.size() + all.length);
        for (int next = 0; next < all.length; next++) {
            super.add(at + next, (E) all[next]);
        }
        return all.length > 0;
    }

    @Override
    public boolean removeAll(Collection<?> others) {
        return keep(others, false);
    }

    @Override
    public boolean retainAll(Collection<?> others) {
        return keep(others, true);
    }

    private boolean keep(Collection<?> others, boolean kept) {
        if (others == null) {
            throw new NullPointerException();
        }
        boolean[] goes = new boolean[super.size()];
        int many = 0;
        try {
            for (int at = 0; at < goes.length; at++) {
                if (others.contains(super.get(at)) != kept) {
                    goes[at] = true;
                    many++;
                }
            }
        } finally {
            if (many > 0) {
                shorten();
                for (int at = goes.length - 1; at >= 0; at--) {
                    if (goes[at]) {
                        super.remove(at);
                    }
                }
            }
        }
        return many > 0;
    }

    @Override
    protected void removeRange(int from, int to) {
        shorten();
        for (int at = to - 1; at >= from; at--) {
            super.remove(at);
        }
    }

    public void ensureCapacity(int wanted) {
        makeRoom(0);
        if (wanted > Math.max(capacity, 0) && !(capacity < 0 && wanted <= 10)) {
            change();
            makeRoom(wanted);
        }
    }

    public void trimToSize() {
        makeRoom(0);
        change();
        capacity = capacity < 0 ? -1 : super.size();
        most = super.size();
    }

    @Override
    public Object clone() {
        return new ArrayList<>(this);
    }

    @Override
    public Object[] toArray() {
        Object[] made = new Object[super.size()];
        for (int at = 0; at < made.length; at++) {
            made[at] = super.get(at);
        }
        return made;
    }

    @Override
    public <T> T[] toArray(T[] into) {
        int size = super.size();
        Object[] made = into.length < size ? java.util.Arrays.copyOf(into, size) : into;
        for (int at = 0; at < size; at++) {
            made[at] = super.get(at);
        }
        if (size < made.length) {
            made[size] = null;
        }
        return (T[]) made;
    }

    @Override
    public Iterator<E> iterator() {
        Iterator<E> walk = super.iterator();
        Ahead<E> made = knowsPlaces || watchers != null && watchers.isOpen() ? new Placed<>(this, walk) : new Ahead<>(this, walk);
        made.other = watchers;
        watchers = made;
        return made;
    }

    @Override
    public List<E> subList(int from, int to) {
        return new Whole<>(this).subList(from, to);
    }

    @Override
    public String toString() {
        return new WrappedList((List<Object>) this).toString(this);
    }

    @Override
    public int lastIndexOf(Object sought) {
        for (int at = super.size() - 1; at >= 0; at--) {
            if (sought == null ? super.get(at) == null : sought.equals(super.get(at))) {
                return at;
            }
        }
        return -1;
    }

    @Override
    public ListIterator<E> listIterator() {
        return new Walk<>(this, 0);
    }

    @Override
    public ListIterator<E> listIterator(int at) {
        if (at < 0 || at > super.size()) {
            throw new IndexOutOfBoundsException("Index: " + at);
        }
        return new Walk<>(this, at);
    }

    @Override
    public boolean equals(Object other) {
        if (other == this) {
            return true;
        }
        if (!(other instanceof List)) {
            return false;
        }
        Still still = still();
        boolean isSame = other.getClass() == ArrayList.class ? hasItems((ArrayList<?>) other) : hasItems(((List<?>) other).iterator());
        still.check();
        return isSame;
    }

    private boolean hasItems(ArrayList<?> of) {
        int size = super.size();
        if (size != of.size()) {
            return false;
        }
        for (int at = 0; at < size; at++) {
            E next = super.get(at);
            Object same = of.get(at);
            if (next == null ? same != null : !next.equals(same)) {
                return false;
            }
        }
        return true;
    }

    private boolean hasItems(Iterator<?> of) {
        int size = super.size();
        for (int at = 0; at < size; at++) {
            if (!of.hasNext()) {
                return false;
            }
            E next = super.get(at);
            Object same = of.next();
            if (next == null ? same != null : !next.equals(same)) {
                return false;
            }
        }
        return !of.hasNext();
    }

    @Override
    public int hashCode() {
        Still still = still();
        int size = super.size();
        int code = 1;
        for (int at = 0; at < size; at++) {
            E next = super.get(at);
            code = 31 * code + (next == null ? 0 : next.hashCode());
        }
        still.check();
        return code;
    }

    @Override
    public void forEach(Consumer<? super E> action) {
        java.util.Objects.requireNonNull(action);
        Still still = still();
        int size = super.size();
        for (int at = 0; at < size && !still.isLeft; at++) {
            action.accept(super.get(at));
        }
        still.check();
    }

    @Override
    public void sort(Comparator<? super E> by) {
        Still still = still();
        E[] all = (E[]) new Object[super.size()];
        for (int at = 0; at < all.length; at++) {
            all[at] = super.get(at);
        }
        try {
            java.util.Arrays.sort(all, by);
        } finally {
            for (int at = 0; at < all.length && !still.isLeft; at++) {
                super.set(at, all[at]);
            }
        }
        still.check();
        change();
    }

    @Override
    public void replaceAll(UnaryOperator<E> operator) {
        java.util.Objects.requireNonNull(operator);
        Still still = still();
        int size = super.size();
        for (int at = 0; at < size; at++) {
            E to = operator.apply(super.get(at));
            still.check();
            super.set(at, to);
        }
        change();
    }

    // For a variable of the profile's own class.

    public static Object clone(java.util.ArrayList of) {
        return of instanceof ArrayList ? ((ArrayList) of).clone() : new ArrayList(of);
    }

    public static void ensureCapacity(java.util.ArrayList of, int capacity) {
        if (of instanceof ArrayList) {
            ((ArrayList) of).ensureCapacity(capacity);
        }
    }

    public static void trimToSize(java.util.ArrayList of) {
        if (of instanceof ArrayList) {
            ((ArrayList) of).trimToSize();
        }
    }

    /** What is told, once, before the list gets longer or shorter. */
    abstract static class Watcher {
        Watcher other;

        abstract void leave();

        /** Whether it may be a walk that is on its way. */
        boolean isOpen() {
            return true;
        }
    }

    static final class Still extends Watcher {
        boolean isLeft;

        @Override
        void leave() {
            isLeft = true;
        }

        void check() {
            if (isLeft) {
                throw new ConcurrentModificationException();
            }
        }
    }

    /**
     * A walk from the first item to the last, in few steps: the profile's own, which sees no change and can't tell where it stands. Before the list
     * changes, or an item is to be removed, it is walked to its end for that, and one that knows takes its place.
     */
    private static class Ahead<E> extends Watcher implements Iterator<E> {
        final ArrayList<E> of;
        Iterator<E> walk;

        Ahead(ArrayList<E> of, Iterator<E> walk) {
            this.of = of;
            this.walk = walk;
        }

        @Override
        public final boolean hasNext() {
            return walk.hasNext();
        }

        @Override
        public E next() {
            return walk.next();
        }

        @Override
        public final void remove() {
            Standing<E> standing = standing();
            if (!standing.hasLast) {
                throw new IllegalStateException();
            }
            standing.check();
            of.remove(standing.at - 1);
            standing.at--;
            standing.hasLast = false;
            if (standing.isLeft) {
                standing.isLeft = false;
                of.watch(this);
            }
        }

        @Override
        final void leave() {
            standing().isLeft = true;
        }

        @Override
        final boolean isOpen() {
            return walk.hasNext();
        }

        private Standing<E> standing() {
            if (!(walk instanceof Standing)) {
                walk = new Standing<>(of, place());
            }
            return (Standing<E>) walk;
        }

        int place() {
            int at = of.count();
            if (walk.hasNext()) {
                of.knowsPlaces = true;
            }
            while (walk.hasNext()) {
                walk.next();
                at--;
            }
            return at;
        }
    }

    /** Where another walk is on its way, or one was left there: so that not each has to be walked to its end. */
    private static final class Placed<E> extends Ahead<E> {
        private int at;

        Placed(ArrayList<E> of, Iterator<E> walk) {
            super(of, walk);
        }

        @Override
        public E next() {
            at++;
            return walk.next();
        }

        @Override
        int place() {
            return Math.min(at, of.count());
        }
    }

    private static final class Standing<E> implements Iterator<E> {
        private final ArrayList<E> of;
        int at;
        boolean hasLast;
        boolean isLeft;

        Standing(ArrayList<E> of, int at) {
            this.of = of;
            this.at = at;
            hasLast = at > 0;
        }

        void check() {
            if (isLeft) {
                throw new ConcurrentModificationException();
            }
        }

        @Override
        public boolean hasNext() {
            return at != of.count();
        }

        @Override
        public E next() {
            check();
            if (at >= of.count()) {
                throw new NoSuchElementException();
            }
            hasLast = true;
            return of.item(at++);
        }
    }

    private static final class Walk<E> extends Watcher implements ListIterator<E> {
        private final ArrayList<E> of;
        private int at;
        private int last = -1;
        private boolean isLeft;

        Walk(ArrayList<E> of, int at) {
            this.of = of;
            this.at = at;
            of.watch(this);
        }

        @Override
        void leave() {
            isLeft = true;
        }

        /** After a change of its own. */
        private void goOn() {
            last = -1;
            if (isLeft) {
                isLeft = false;
                of.watch(this);
            }
        }

        private void check() {
            if (isLeft) {
                throw new ConcurrentModificationException();
            }
        }

        @Override
        public boolean hasNext() {
            return at != of.count();
        }

        @Override
        public E next() {
            check();
            if (at >= of.count()) {
                throw new NoSuchElementException();
            }
            last = at++;
            return of.item(last);
        }

        @Override
        public boolean hasPrevious() {
            return at != 0;
        }

        @Override
        public E previous() {
            check();
            if (at <= 0) {
                throw new NoSuchElementException();
            }
            last = --at;
            return of.item(last);
        }

        @Override
        public int nextIndex() {
            return at;
        }

        @Override
        public int previousIndex() {
            return at - 1;
        }

        @Override
        public void remove() {
            if (last < 0) {
                throw new IllegalStateException();
            }
            check();
            of.remove(last);
            at = last;
            goOn();
        }

        @Override
        public void set(E to) {
            if (last < 0) {
                throw new IllegalStateException();
            }
            check();
            of.set(last, to);
        }

        @Override
        public void add(E next) {
            check();
            of.add(at, next);
            at++;
            goOn();
        }
    }

    /** The list as its parts know it: it counts the changes for them, its own too. */
    private static final class Whole<E> extends AbstractList<E> {
        private final ArrayList<E> of;
        private boolean isLeft;
        private final Watcher watcher = new Watcher() {
            @Override
            void leave() {
                isLeft = true;
                modCount++;
            }
        };

        Whole(ArrayList<E> of) {
            this.of = of;
            of.watch(watcher);
        }

        /** After a change of its own. */
        private void goOn() {
            if (isLeft) {
                isLeft = false;
                of.watch(watcher);
            }
        }

        @Override
        public E get(int at) {
            return of.get(at);
        }

        @Override
        public int size() {
            return of.size();
        }

        @Override
        public E set(int at, E to) {
            return of.set(at, to);
        }

        @Override
        public void add(int at, E next) {
            of.add(at, next);
            goOn();
        }

        @Override
        public E remove(int at) {
            E found = of.remove(at);
            goOn();
            return found;
        }

        @Override
        public boolean addAll(int at, Collection<? extends E> others) {
            boolean changed = of.addAll(at, others);
            goOn();
            return changed;
        }

        @Override
        protected void removeRange(int from, int to) {
            of.removeRange(from, to);
            goOn();
        }
    }
}
