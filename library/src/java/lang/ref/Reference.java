package java.lang.ref;

/** Nothing is ever collected. */
public abstract class Reference<T> {
    private T of;

    Reference(T of) {
        this.of = of;
    }

    public T get() {
        return of;
    }

    public void clear() {
        of = null;
    }

    public boolean enqueue() {
        of = null;
        return false;
    }

    public boolean isEnqueued() {
        return false;
    }
}
