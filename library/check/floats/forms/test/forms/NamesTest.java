package forms;

import static org.junit.Assert.assertEquals;
import static org.junit.Assert.assertTrue;

import java.util.function.BiFunction;
import java.util.function.DoubleBinaryOperator;
import java.util.function.DoubleFunction;
import java.util.function.DoubleSupplier;
import java.util.function.DoubleUnaryOperator;
import java.util.function.Function;
import java.util.function.IntFunction;
import java.util.function.Supplier;
import java.util.function.ToDoubleFunction;
import org.junit.Test;

/** Which method, constructor or function is called. */
public class NamesTest {
    @Test
    public void methods() {
        assertEquals("int", Which.of(1));
        assertEquals("long", Which.of(1L));
        assertEquals("float", Which.of(1f));
        assertEquals("double", Which.of(1.0));
        assertEquals("object", Which.of(Double.valueOf(2)));
        assertEquals("longs", Which.of(new long[0]));
        assertEquals("floats", Which.of(new float[0]));
        assertEquals("doubles", Which.of(new double[0]));
        assertEquals("doubles2", Which.of(new double[0][]));
        assertEquals("numbers", Which.of(new Integer[0]));
        assertEquals("objects", Which.of(new String[0]));
        assertEquals(6, Which.sum(1, 2, 3), 0);
        assertEquals(0, Which.sum(), 0);
    }

    @Test
    public void constructors() {
        assertEquals("int", new Made(1).by);
        assertEquals("float", new Made(1.5f).by);
        assertEquals("small float", new Made(0f).by);
        assertEquals("long", new Made(1L).by);
        assertEquals("double1", new Made(1.0).by);
        assertEquals("longs0", new Made(1.0, new long[0]).by);
        assertEquals("objects", new Made(new String[0]).by);
        assertEquals("numbers", new Made(new Integer[0]).by);
        assertEquals("double1", new Made.Below(-1.0).by);
        assertEquals("float", new Made.Below(5).by);
        assertEquals("float", new Made(3f) { }.by);
        DoubleFunction<Made> maker = Made::new;
        assertEquals("double1", maker.apply(2).by);
        IntFunction<Made> ofInts = Made::new;
        assertEquals("int", ofInts.apply(2).by);
    }

    @Test
    public void constants() {
        assertEquals(3.0, Made.Scale.A.twice(), 0);
        assertEquals(60.0, Made.Scale.B.twice(), 0);
        assertEquals(25, Made.Scale.C.size, 0);
        assertEquals(1, Made.Scale.valueOf("C").twice(), 0);
    }

    @Test
    public void interfaces() {
        Shape shape = new Square(3);
        assertEquals(18, shape.twice(), 0);
        Shape other = () -> 2.5;
        assertEquals(5, other.twice(), 0);
        Measured<Double> measured = new Square(2);
        assertEquals(3.0, measured.size(1.5), 0);
        assertTrue(new Square(1).compareTo(new Square(2)) < 0);
        Number number = new Square(1.5);
        assertEquals(1.5f, number.floatValue(), 0);
        assertEquals(1, number.byteValue());
    }

    @Test
    public void functions() {
        double by = 2.5;
        float more = .5f;
        DoubleUnaryOperator scaled = x -> x * by + more;
        assertEquals(8, scaled.applyAsDouble(3), 0);
        DoubleUnaryOperator root = Math::sqrt;
        assertEquals(3, root.applyAsDouble(9), 0);
        DoubleBinaryOperator greater = Math::max;
        assertEquals(2, greater.applyAsDouble(1, 2), 0);
        Function<Double, Integer> whole = Double::intValue;
        assertEquals(2, (int) whole.apply(2.9));
        ToDoubleFunction<String> read = Double::parseDouble;
        assertEquals(1.5, read.applyAsDouble("1.5"), 0);
        Supplier<double[]> row = () -> new double[] {by};
        assertEquals(2.5, row.get()[0], 0);
        IntFunction<double[]> array = double[]::new;
        assertTrue((Object) array.apply(2) instanceof double[]);
        BiFunction<Double, Double, Double> sum = (a, b) -> a + b;
        assertEquals(3.0, sum.apply(1.0, 2.0), 0);
        DoubleSupplier given = () -> more;
        assertEquals(.5, given.getAsDouble(), 0);
        assertEquals(1.5, Which.same(1.5), 0);
    }
}
