package java.lang.ref;

public class ReferenceQueue<T> {
    public Reference<? extends T> poll() {
        return null;
    }
}
