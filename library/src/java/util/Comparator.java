package java.util;

import java.util.function.Function;
import java.util.function.ToIntFunction;
import java.util.function.ToLongFunction;

public interface Comparator<T> {
    int compare(T one, T other);

    boolean equals(Object other);

    default Comparator<T> reversed() {
        return Collections.reverseOrder(this);
    }

    default Comparator<T> thenComparing(Comparator<? super T> next) {
        Objects.requireNonNull(next);
        return (one, other) -> {
            int found = compare(one, other);
            return found != 0 ? found : next.compare(one, other);
        };
    }

    default <U extends Comparable<? super U>> Comparator<T> thenComparing(Function<? super T, ? extends U> key) {
        return thenComparing(comparing(key));
    }

    default <U> Comparator<T> thenComparing(Function<? super T, ? extends U> key, Comparator<? super U> by) {
        return thenComparing(comparing(key, by));
    }

    default Comparator<T> thenComparingInt(ToIntFunction<? super T> key) {
        return thenComparing(comparingInt(key));
    }

    static <T extends Comparable<? super T>> Comparator<T> reverseOrder() {
        return Collections.reverseOrder();
    }

    static <T extends Comparable<? super T>> Comparator<T> naturalOrder() {
        return (one, other) -> one.compareTo(other);
    }

    static <T, U extends Comparable<? super U>> Comparator<T> comparing(Function<? super T, ? extends U> key) {
        Objects.requireNonNull(key);
        return (one, other) -> key.apply(one).compareTo(key.apply(other));
    }

    static <T, U> Comparator<T> comparing(Function<? super T, ? extends U> key, Comparator<? super U> by) {
        Objects.requireNonNull(key);
        Objects.requireNonNull(by);
        return (one, other) -> by.compare(key.apply(one), key.apply(other));
    }

    static <T> Comparator<T> comparingInt(ToIntFunction<? super T> key) {
        Objects.requireNonNull(key);
        return (one, other) -> Integer.compare(key.applyAsInt(one), key.applyAsInt(other));
    }

    static <T> Comparator<T> comparingLong(ToLongFunction<? super T> key) {
        Objects.requireNonNull(key);
        return (one, other) -> Long.compare(key.applyAsLong(one), key.applyAsLong(other));
    }

    static <T> Comparator<T> nullsFirst(Comparator<? super T> by) {
        return (one, other) -> one == null ? other == null ? 0 : -1 : other == null ? 1 : by == null ? 0
            : by.compare(one, other);
    }

    static <T> Comparator<T> nullsLast(Comparator<? super T> by) {
        return (one, other) -> one == null ? other == null ? 0 : 1 : other == null ? -1 : by == null ? 0
            : by.compare(one, other);
    }
}
