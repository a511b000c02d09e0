package java.util.function;

public interface Predicate<T> {
    boolean test(T of);

    default Predicate<T> and(Predicate<? super T> other) {
        return new Predicate<T>() {
            @Override
            public boolean test(T of) {
                return Predicate.this.test(of) && other.test(of);
            }
        };
    }

    default Predicate<T> or(Predicate<? super T> other) {
        return new Predicate<T>() {
            @Override
            public boolean test(T of) {
                return Predicate.this.test(of) || other.test(of);
            }
        };
    }

    default Predicate<T> negate() {
        return new Predicate<T>() {
            @Override
            public boolean test(T of) {
                return !Predicate.this.test(of);
            }
        };
    }

    static <T> Predicate<T> isEqual(Object to) {
        return new Predicate<T>() {
            @Override
            public boolean test(T of) {
                return to == null ? of == null : to.equals(of);
            }
        };
    }
}
