package more.java.util;

import java.util.Comparator;
import java.util.ListIterator;
import java.util.function.UnaryOperator;

/** Members of java.util.List. */
public interface List<E> extends Collection<E>, java.util.List<E> {
    @Override
    int lastIndexOf(Object of);

    @Override
    boolean addAll(int at, java.util.Collection<? extends E> others);

    @Override
    ListIterator<E> listIterator();

    @Override
    ListIterator<E> listIterator(int at);

    @Override
    java.util.List<E> subList(int from, int to);

    @Override
    default void sort(Comparator<? super E> by) {
        Object[] sorted = toArray();
        java.util.Arrays.sort(sorted, (Comparator) by);
        for (int at = 0; at < sorted.length; at++) {
            set(at, (E) sorted[at]);
        }
    }

    @Override
    default void replaceAll(UnaryOperator<E> operator) {
        for (int at = 0; at < size(); at++) {
            set(at, operator.apply(get(at)));
        }
    }

    // For a list of the profile's own library, by what it has; for one of a JVM, its own member.

    static int lastIndexOf(java.util.List of, Object sought) {
        if (of instanceof List) {
            return ((List) of).lastIndexOf(sought);
        }
        try {
            return of.lastIndexOf(sought);
        } catch (NoSuchMethodError none) {
            Nulls.refuse(of);
            return ((List) (Object) new WrappedList(of)).lastIndexOf(sought);
        }
    }

    static boolean addAll(java.util.List of, int at, java.util.Collection others) {
        if (of instanceof List) {
            return ((List) of).addAll(at, others);
        }
        try {
            return of.addAll(at, others);
        } catch (NoSuchMethodError none) {
            Nulls.refuse(of);
            return ((List) (Object) new WrappedList(of)).addAll(at, others);
        }
    }

    static ListIterator listIterator(java.util.List of) {
        if (of instanceof List) {
            return ((List) of).listIterator();
        }
        try {
            return of.listIterator();
        } catch (NoSuchMethodError none) {
            Nulls.refuse(of);
            return ((List) (Object) new WrappedList(of)).listIterator();
        }
    }

    static ListIterator listIterator(java.util.List of, int at) {
        if (of instanceof List) {
            return ((List) of).listIterator(at);
        }
        try {
            return of.listIterator(at);
        } catch (NoSuchMethodError none) {
            Nulls.refuse(of);
            return ((List) (Object) new WrappedList(of)).listIterator(at);
        }
    }

    static java.util.List subList(java.util.List of, int from, int to) {
        if (of instanceof List) {
            return ((List) of).subList(from, to);
        }
        try {
            return of.subList(from, to);
        } catch (NoSuchMethodError none) {
            Nulls.refuse(of);
            return ((List) (Object) new WrappedList(of)).subList(from, to);
        }
    }

    static void sort(java.util.List of, Comparator by) {
        if (of instanceof List) {
            ((List) of).sort(by);
            return;
        }
        try {
            of.sort(by);
        } catch (NoSuchMethodError none) {
            Nulls.refuse(of);
            ((List) (Object) new WrappedList(of)).sort(by);
        }
    }

    static void replaceAll(java.util.List of, UnaryOperator operator) {
        if (of instanceof List) {
            ((List) of).replaceAll(operator);
            return;
        }
        try {
            of.replaceAll(operator);
        } catch (NoSuchMethodError none) {
            Nulls.refuse(of);
            ((List) (Object) new WrappedList(of)).replaceAll(operator);
        }
    }
}
