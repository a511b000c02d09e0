package java.util;

import java.io.Serializable;
import more.Known;

/** A set in the order of the constants. */
public abstract class EnumSet<E extends Enum<E>> extends AbstractSet<E> implements Cloneable, Serializable {
    EnumSet() {
    }

    public static <E extends Enum<E>> EnumSet<E> noneOf(Class<E> kind) {
        return new RegularEnumSet<>(kind, constants(kind));
    }

    private static Enum<?>[] constants(Class<?> kind) {
        Object[] found = Known.values(kind.getName());
        if (found == null) {
            throw new ClassCastException(kind + " not an enum");
        }
        Enum<?>[] made = new Enum<?>[found.length];
        for (int at = 0; at < made.length; at++) {
            made[at] = (Enum<?>) found[at];
        }
        return made;
    }

    public static <E extends Enum<E>> EnumSet<E> allOf(Class<E> kind) {
        RegularEnumSet<E> made = (RegularEnumSet<E>) noneOf(kind);
        made.fill(0, made.all.length - 1);
        return made;
    }

    public static <E extends Enum<E>> EnumSet<E> copyOf(EnumSet<E> of) {
        return of.clone();
    }

    public static <E extends Enum<E>> EnumSet<E> copyOf(Collection<E> of) {
        if (of instanceof EnumSet) {
            return ((EnumSet<E>) of).clone();
        }
        if (of.isEmpty()) {
            throw new IllegalArgumentException("Collection is empty");
        }
        Iterator<E> walk = of.iterator();
        EnumSet<E> made = of(walk.next());
        while (walk.hasNext()) {
            made.add(walk.next());
        }
        return made;
    }

    public static <E extends Enum<E>> EnumSet<E> complementOf(EnumSet<E> of) {
        RegularEnumSet<E> set = (RegularEnumSet<E>) of;
        RegularEnumSet<E> made = new RegularEnumSet<>(set.kind, set.all);
        for (int at = 0; at < set.has.length; at++) {
            made.put(at, !set.has[at]);
        }
        return made;
    }

    public static <E extends Enum<E>> EnumSet<E> of(E one) {
        EnumSet<E> made = noneOf(one.getDeclaringClass());
        made.add(one);
        return made;
    }

    public static <E extends Enum<E>> EnumSet<E> of(E one, E two) {
        EnumSet<E> made = of(one);
        made.add(two);
        return made;
    }

    public static <E extends Enum<E>> EnumSet<E> of(E one, E two, E three) {
        EnumSet<E> made = of(one, two);
        made.add(three);
        return made;
    }

    public static <E extends Enum<E>> EnumSet<E> of(E one, E two, E three, E four) {
        EnumSet<E> made = of(one, two, three);
        made.add(four);
        return made;
    }

    public static <E extends Enum<E>> EnumSet<E> of(E one, E two, E three, E four, E five) {
        EnumSet<E> made = of(one, two, three, four);
        made.add(five);
        return made;
    }

    public static <E extends Enum<E>> EnumSet<E> of(E first, E... others) {
        EnumSet<E> made = of(first);
        for (int at = 0; at < others.length; at++) {
            made.add(others[at]);
        }
        return made;
    }

    public static <E extends Enum<E>> EnumSet<E> range(E from, E to) {
        if (from.getDeclaringClass() != to.getDeclaringClass()) {
            throw new ClassCastException();
        }
        if (from.compareTo(to) > 0) {
            throw new IllegalArgumentException(from + " > " + to);
        }
        RegularEnumSet<E> made = (RegularEnumSet<E>) noneOf(from.getDeclaringClass());
        made.fill(from.ordinal(), to.ordinal());
        return made;
    }

    @Override
    public EnumSet<E> clone() {
        RegularEnumSet<E> set = (RegularEnumSet<E>) this;
        RegularEnumSet<E> made = new RegularEnumSet<>(set.kind, set.all);
        for (int at = 0; at < set.has.length; at++) {
            made.put(at, set.has[at]);
        }
        return made;
    }
}
