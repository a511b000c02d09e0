package java.util.function;

public interface Function<T, R> {
    R apply(T of);

    default <V> Function<V, R> compose(Function<? super V, ? extends T> before) {
        return new Function<V, R>() {
            @Override
            public R apply(V of) {
                return Function.this.apply(before.apply(of));
            }
        };
    }

    default <V> Function<T, V> andThen(Function<? super R, ? extends V> after) {
        return new Function<T, V>() {
            @Override
            public V apply(T of) {
                return after.apply(Function.this.apply(of));
            }
        };
    }

    static <T> Function<T, T> identity() {
        return new Function<T, T>() {
            @Override
            public T apply(T of) {
                return of;
            }
        };
    }
}
