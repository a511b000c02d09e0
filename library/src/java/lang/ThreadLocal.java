package java.lang;

import java.util.function.Supplier;

/** There is one thread. */
public class ThreadLocal<T> {
    private T value;
    private boolean isSet;

    public ThreadLocal() {
    }

    public static <S> ThreadLocal<S> withInitial(Supplier<? extends S> first) {
        return new ThreadLocal<S>() {
            @Override
            protected S initialValue() {
                return first.get();
            }
        };
    }

    protected T initialValue() {
        return null;
    }

    public T get() {
        if (!isSet) {
            set(initialValue());
        }
        return value;
    }

    public void set(T to) {
        value = to;
        isSet = true;
    }

    public void remove() {
        value = null;
        isSet = false;
    }
}
