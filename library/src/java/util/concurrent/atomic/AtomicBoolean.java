package java.util.concurrent.atomic;

/** There is one thread. */
public class AtomicBoolean {
    private boolean value;

    public AtomicBoolean() {
    }

    public AtomicBoolean(boolean of) {
        value = of;
    }

    public final boolean get() {
        return value;
    }

    public final void set(boolean to) {
        value = to;
    }

    public final boolean getAndSet(boolean to) {
        boolean old = value;
        value = to;
        return old;
    }

    public final boolean compareAndSet(boolean old, boolean to) {
        boolean isSame = value == old;
        value = isSame ? to : value;
        return isSame;
    }

    @Override
    public String toString() {
        return Boolean.toString(value);
    }
}
