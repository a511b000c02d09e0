package java.util.function;

public interface LongBinaryOperator {
    long applyAsLong(long one, long other);
}
