package java.util.concurrent.atomic;

/** There is one thread. */
public class AtomicLong extends Number {
    private long value;

    public AtomicLong() {
    }

    public AtomicLong(long of) {
        value = of;
    }

    public final long get() {
        return value;
    }

    public final void set(long to) {
        value = to;
    }

    public final void lazySet(long to) {
        value = to;
    }

    public final long getAndSet(long to) {
        long old = value;
        value = to;
        return old;
    }

    public final boolean compareAndSet(long old, long to) {
        boolean isSame = value == old;
        value = isSame ? to : value;
        return isSame;
    }

    public final long getAndIncrement() {
        return value++;
    }

    public final long getAndDecrement() {
        return value--;
    }

    public final long getAndAdd(long by) {
        value += by;
        return value - by;
    }

    public final long incrementAndGet() {
        return ++value;
    }

    public final long decrementAndGet() {
        return --value;
    }

    public final long addAndGet(long by) {
        value += by;
        return value;
    }

    @Override
    public int intValue() {
        return (int) value;
    }

    @Override
    public long longValue() {
        return value;
    }

    @Override
    public float floatValue() {
        return 0;
    }

    @Override
    public double doubleValue() {
        return 0;
    }

    @Override
    public String toString() {
        return Long.toString(value);
    }
}
