package java.util.concurrent.atomic;

/** There is one thread. */
public class AtomicReference<V> {
    private V value;

    public AtomicReference() {
    }

    public AtomicReference(V of) {
        value = of;
    }

    public final V get() {
        return value;
    }

    public final void set(V to) {
        value = to;
    }

    public final V getAndSet(V to) {
        V old = value;
        value = to;
        return old;
    }

    public final boolean compareAndSet(V old, V to) {
        boolean isSame = value == old;
        value = isSame ? to : value;
        return isSame;
    }

    @Override
    public String toString() {
        return String.valueOf(value);
    }
}
