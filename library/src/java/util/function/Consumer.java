package java.util.function;

public interface Consumer<T> {
    void accept(T of);

    default Consumer<T> andThen(Consumer<? super T> after) {
        return new Consumer<T>() {
            @Override
            public void accept(T of) {
                Consumer.this.accept(of);
                after.accept(of);
            }
        };
    }
}
