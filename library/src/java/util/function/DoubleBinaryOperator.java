package java.util.function;

public interface DoubleBinaryOperator {
    double applyAsDouble(double one, double other);
}
