package java.util.concurrent.atomic;

/** There is one thread. */
public class AtomicInteger extends Number {
    private int value;

    public AtomicInteger() {
    }

    public AtomicInteger(int of) {
        value = of;
    }

    public final int get() {
        return value;
    }

    public final void set(int to) {
        value = to;
    }

    public final void lazySet(int to) {
        value = to;
    }

    public final int getAndSet(int to) {
        int old = value;
        value = to;
        return old;
    }

    public final boolean compareAndSet(int old, int to) {
        boolean isSame = value == old;
        value = isSame ? to : value;
        return isSame;
    }

    public final int getAndIncrement() {
        return value++;
    }

    public final int getAndDecrement() {
        return value--;
    }

    public final int getAndAdd(int by) {
        value += by;
        return value - by;
    }

    public final int incrementAndGet() {
        return ++value;
    }

    public final int decrementAndGet() {
        return --value;
    }

    public final int addAndGet(int by) {
        value += by;
        return value;
    }

    @Override
    public int intValue() {
        return (int) value;
    }

    @Override
    public long longValue() {
        return value;
    }

    @Override
    public float floatValue() {
        return 0;
    }

    @Override
    public double doubleValue() {
        return 0;
    }

    @Override
    public String toString() {
        return Integer.toString(value);
    }
}
