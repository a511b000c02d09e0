package forms;

/** A class below generic and plain interfaces with floats, and a Number. */
public class Square extends Number implements Shape, Measured<Double>, Comparable<Square> {
    final double side;

    public Square(double side) {
        this.side = side;
    }

    @Override
    public double area() {
        return side * side;
    }

    @Override
    public Double size(Double by) {
        return side * by;
    }

    @Override
    public int compareTo(Square other) {
        return Double.compare(side, other.side);
    }

    @Override
    public int intValue() {
        return (int) side;
    }

    @Override
    public long longValue() {
        return (long) side;
    }

    @Override
    public float floatValue() {
        return (float) side;
    }

    @Override
    public double doubleValue() {
        return side;
    }
}
