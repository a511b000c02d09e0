package java.util.function;

public interface BiFunction<T, U, R> {
    R apply(T one, U other);

    default <V> BiFunction<T, U, V> andThen(Function<? super R, ? extends V> after) {
        return new BiFunction<T, U, V>() {
            @Override
            public V apply(T one, U other) {
                return after.apply(BiFunction.this.apply(one, other));
            }
        };
    }
}
