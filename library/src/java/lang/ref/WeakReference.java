package java.lang.ref;

public class WeakReference<T> extends Reference<T> {
    public WeakReference(T of) {
        super(of);
    }

    public WeakReference(T of, ReferenceQueue<? super T> queue) {
        super(of);
    }
}
