package java.lang.ref;

public class SoftReference<T> extends Reference<T> {
    public SoftReference(T of) {
        super(of);
    }

    public SoftReference(T of, ReferenceQueue<? super T> queue) {
        super(of);
    }
}
