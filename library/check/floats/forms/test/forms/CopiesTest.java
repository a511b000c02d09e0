package forms;

import static org.junit.Assert.assertEquals;
import static org.junit.Assert.assertFalse;
import static org.junit.Assert.assertNull;
import static org.junit.Assert.assertSame;
import static org.junit.Assert.assertTrue;

import java.util.ArrayList;
import java.util.Arrays;
import java.util.Collections;
import java.util.List;
import org.junit.Test;

/** Copies of arrays, and what arrays take that are named as those of objects. */
public class CopiesTest {
    private static final double[][] ROWS = {{1}, {2}};

    @Test
    public void clones() {
        double[] of = {1, 2};
        double[] copy = of.clone();
        copy[0] = 5;
        assertEquals(1, of[0], 0);
        assertTrue((Object) copy instanceof double[]);
        Object rows = ROWS.clone();
        assertSame(ROWS[0], ((double[][]) rows)[0]);
        assertFalse(rows instanceof long[][]);
        assertTrue(Which.copy(ROWS) instanceof double[][]);
        assertTrue(((Object[]) ROWS).clone() instanceof double[][]);
    }

    @Test
    public void copies() {
        Object of = Arrays.copyOf(ROWS, 3);
        assertTrue(of instanceof double[][]);
        assertNull(((double[][]) of)[2]);
        assertEquals(2, Arrays.copyOfRange(ROWS, 1, 2)[0][0], 0);
        Number[] numbers = Arrays.copyOf(new Number[] {1.5, 2}, 1);
        assertEquals(1.5, numbers[0].doubleValue(), 0);
        assertEquals(Integer.class, Arrays.copyOf((Number[]) new Integer[1], 1).getClass().getComponentType());
    }

    @Test
    public void lists() {
        List<double[]> rows = new ArrayList<>(Collections.singletonList(ROWS[1]));
        assertEquals(2, rows.toArray(new double[0][])[0][0], 0);
        assertEquals(2, rows.toArray(new double[1][])[0][0], 0);
        List<Double> list = new ArrayList<>();
        list.add(3.5);
        assertEquals(3.5, list.toArray(new Double[0])[0], 0);
        assertEquals(3.5, list.toArray(new Number[0])[0].doubleValue(), 0);
        assertEquals(2, Arrays.asList(ROWS).get(1)[0], 0);
    }

    @Test(expected = ArrayStoreException.class)
    public void copiesOfDoublesToLongs() {
        System.arraycopy(new double[2], 0, new long[2], 0, 1);
    }

    @Test(expected = ArrayStoreException.class)
    public void copiesOfIntsToFloats() {
        System.arraycopy(new int[2], 0, new float[2], 0, 1);
    }

    @Test(expected = ArrayStoreException.class)
    public void copiesOfRows() {
        System.arraycopy(ROWS, 0, new long[1][], 0, 1);
    }

    @Test(expected = ArrayStoreException.class)
    public void storesARow() {
        Object[] of = new double[1][];
        of[0] = new long[1];
    }

    @Test(expected = ArrayStoreException.class)
    public void storesARowWhereOnlyObjectsAreKnown() {
        Object[] of = Which.same((Object[]) new double[1][]);
        of[0] = new long[1];
    }

    @Test(expected = ArrayStoreException.class)
    public void storesNoNumber() {
        Object[] of = new Number[1];
        of[0] = "x";
    }

    @Test
    public void deeply() {
        double[][] one = {{1, -0.0}, {Double.NaN}};
        double[][] other = {{1, 0.0}, {Double.NaN}};
        assertTrue(Arrays.deepEquals(one, new double[][] {{1, -0.0}, {Double.NaN}}));
        assertFalse(Arrays.deepEquals(one, other));
        assertEquals(Arrays.deepHashCode(one), Arrays.deepHashCode(new double[][] {{1, -0.0}, {Double.NaN}}));
        assertEquals("[[1.0, -0.0], [NaN]]", Arrays.deepToString(one));
        assertFalse(Arrays.deepEquals(new Object[] {new double[0]}, new Object[] {new long[0]}));
        assertEquals("[1.5, [2.5], null]", Arrays.deepToString(new Object[] {1.5, new float[] {2.5f}, null}));
    }

    @Test
    public void threeDimensions() {
        double[][][] of = new double[2][3][4];
        of[1][2][3] = 5;
        assertEquals(5, of[1][2][3], 0);
        Object rows = of[1];
        assertTrue(rows instanceof double[][]);
        Object row = of[1][2];
        assertFalse(row instanceof long[]);
    }

    @Test(expected = NegativeArraySizeException.class)
    public void negativeLength() {
        assertEquals(1, new double[Integer.parseInt("-1")].length);
    }

    @Test(expected = ArrayIndexOutOfBoundsException.class)
    public void outside() {
        double[] of = new double[2];
        of[2] = 1;
    }
}
