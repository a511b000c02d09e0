package java.util.function;

public interface IntBinaryOperator {
    int applyAsInt(int one, int other);
}
