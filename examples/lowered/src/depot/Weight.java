package depot;

import java.util.function.DoubleUnaryOperator;

/** A weight in grams. */
public class Weight extends Number implements Comparable<Weight> {
    public static final Weight NONE = new Weight(0L);

    private final double grams;

    public Weight(double grams) {
        this.grams = grams;
    }

    public Weight(long grams) {
        this(grams > 1000000 ? 1e6 : (double) grams);
    }

    public static Weight parse(String text) {
        return new Weight(Double.parseDouble(text));
    }

    /** The mean of some, and how far they are from it. */
    public static double[] spread(double... all) {
        double sum = 0;
        for (double one : all) {
            sum += one;
        }
        double mean = sum / all.length;
        double squares = 0;
        for (int at = 0; at < all.length; at++) {
            squares += (all[at] - mean) * (all[at] - mean);
        }
        return new double[] {mean, Math.sqrt(squares / all.length)};
    }

    public static String kind(Object of) {
        if (of instanceof long[]) {
            return "longs " + ((long[]) of).length;
        }
        if (of instanceof double[]) {
            return "doubles " + ((double[]) of)[0];
        }
        return of instanceof float[][] ? "floats " + ((float[][]) of)[0].length : "none";
    }

    public static long half(long of) {
        return of / 2;
    }

    public static double half(double of) {
        return of / 2;
    }

    public static float half(float of) {
        return of / 2;
    }

    public Weight changed(DoubleUnaryOperator by) {
        return new Weight(by.applyAsDouble(grams));
    }

    public boolean isAbove(Weight other) {
        return grams > other.grams;
    }

    @Override
    public int intValue() {
        return (int) grams;
    }

    @Override
    public long longValue() {
        return Math.round(grams);
    }

    @Override
    public float floatValue() {
        return (float) grams;
    }

    @Override
    public double doubleValue() {
        return grams;
    }

    @Override
    public int compareTo(Weight other) {
        return Double.compare(grams, other.grams);
    }

    @Override
    public String toString() {
        return String.format("%.2f", grams) + " g, " + (float) grams / 3 + ", " + -grams;
    }
}
