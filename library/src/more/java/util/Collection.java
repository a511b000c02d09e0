package more.java.util;

import java.util.function.Predicate;

/** Members of java.util.Collection. Those of a collection of the profile's own library go by its iterator. */
public interface Collection<E> extends more.java.lang.Iterable<E>, java.util.Collection<E> {
    @Override
    Object[] toArray();

    @Override
    <T> T[] toArray(T[] into);

    @Override
    boolean containsAll(java.util.Collection<?> others);

    @Override
    boolean addAll(java.util.Collection<? extends E> others);

    @Override
    boolean removeAll(java.util.Collection<?> others);

    @Override
    boolean retainAll(java.util.Collection<?> others);

    @Override
    default boolean removeIf(Predicate<? super E> filter) {
        boolean changed = false;
        for (java.util.Iterator<E> walk = iterator(); walk.hasNext();) {
            if (filter.test(walk.next())) {
                walk.remove();
                changed = true;
            }
        }
        return changed;
    }

    // For a collection of the profile's own library, by what it has; for one of a JVM, its own member.

    static Object[] toArray(java.util.Collection of) {
        if (of instanceof Collection) {
            return ((Collection) of).toArray();
        }
        try {
            return of.toArray();
        } catch (NoSuchMethodError none) {
            Nulls.refuse(of);
            return Walked.toArray(of);
        }
    }

    static Object[] toArray(java.util.Collection of, Object[] into) {
        if (of instanceof Collection) {
            return ((Collection) of).toArray(into);
        }
        try {
            return of.toArray(into);
        } catch (NoSuchMethodError none) {
            Nulls.refuse(of);
            return Walked.toArray(of, into);
        }
    }

    static boolean containsAll(java.util.Collection of, java.util.Collection others) {
        if (of instanceof Collection) {
            return ((Collection) of).containsAll(others);
        }
        try {
            return of.containsAll(others);
        } catch (NoSuchMethodError none) {
            Nulls.refuse(of);
            return Walked.containsAll(of, others);
        }
    }

    static boolean addAll(java.util.Collection of, java.util.Collection others) {
        if (of instanceof Collection) {
            return ((Collection) of).addAll(others);
        }
        try {
            return of.addAll(others);
        } catch (NoSuchMethodError none) {
            Nulls.refuse(of);
            return Walked.addAll(of, others);
        }
    }

    static boolean removeAll(java.util.Collection of, java.util.Collection others) {
        if (of instanceof Collection) {
            return ((Collection) of).removeAll(others);
        }
        try {
            return of.removeAll(others);
        } catch (NoSuchMethodError none) {
            Nulls.refuse(of);
            return Walked.keep(of, others, false);
        }
    }

    static boolean retainAll(java.util.Collection of, java.util.Collection others) {
        if (of instanceof Collection) {
            return ((Collection) of).retainAll(others);
        }
        try {
            return of.retainAll(others);
        } catch (NoSuchMethodError none) {
            Nulls.refuse(of);
            return Walked.keep(of, others, true);
        }
    }

    static boolean removeIf(java.util.Collection of, Predicate filter) {
        if (of instanceof Collection) {
            return ((Collection) of).removeIf(filter);
        }
        try {
            return of.removeIf(filter);
        } catch (NoSuchMethodError none) {
            Nulls.refuse(of);
            return Walked.removeIf(of, filter);
        }
    }
}
