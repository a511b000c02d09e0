package more.java.util;

import java.util.ArrayList;
import java.util.Collection;
import java.util.function.Predicate;

/** What can be said of a collection by its iterator, add, remove and contains alone. */
final class Walked {
    private Walked() {
    }

    static Object[] toArray(Collection<?> of) {
        Object[] made = new Object[of.size()];
        int at = 0;
        for (Object next : of) {
            made[at++] = next;
        }
        return made;
    }

    static Object[] toArray(Collection<?> of, Object[] into) {
        Object[] made = into.length < of.size() ? java.util.Arrays.copyOf(into, of.size()) : into;
        int at = 0;
        for (Object next : of) {
            made[at++] = next;
        }
        if (at < made.length) {
            made[at] = null;
        }
        return made;
    }

    static boolean containsAll(Collection<?> of, Collection<?> others) {
        for (Object next : others) {
            if (!of.contains(next)) {
                return false;
            }
        }
        return true;
    }

    static boolean addAll(Collection<Object> of, Collection<?> others) {
        boolean changed = false;
        for (Object next : others.toArray()) {
            changed |= of.add(next);
        }
        return changed;
    }

    static boolean keep(Collection<Object> of, Collection<?> others, boolean kept) {
        ArrayList<Object> left = new ArrayList<>();
        int size = of.size();
        for (Object next : of) {
            if (others.contains(next) == kept) {
                left.add(next);
            }
        }
        return replace(of, left, size);
    }

    static boolean removeIf(Collection<Object> of, Predicate<Object> filter) {
        ArrayList<Object> left = new ArrayList<>();
        int size = of.size();
        for (Object next : of) {
            if (!filter.test(next)) {
                left.add(next);
            }
        }
        return replace(of, left, size);
    }

    private static boolean replace(Collection<Object> of, ArrayList<Object> with, int size) {
        if (with.size() == size) {
            return false;
        }
        of.clear();
        for (int at = 0; at < with.size(); at++) {
            of.add(with.get(at));
        }
        return true;
    }
}
