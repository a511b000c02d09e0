package forms;

import static org.junit.Assert.assertEquals;
import static org.junit.Assert.assertFalse;
import static org.junit.Assert.assertNotSame;
import static org.junit.Assert.assertNull;
import static org.junit.Assert.assertSame;
import static org.junit.Assert.assertTrue;

import java.lang.reflect.Array;
import org.junit.Test;

/** Of which kind arrays and numbers are, where only an Object is known. */
public class KindsTest {
    private static Object hidden(Object of) {
        return of;
    }

    @Test(expected = ClassCastException.class)
    public void doublesAreNoLongs() {
        long[] of = (long[]) hidden(new double[3]);
        of[0] = 1;
    }

    @Test(expected = ClassCastException.class)
    public void longsAreNoDoubles() {
        double[] of = (double[]) hidden(new long[3]);
        of[0] = 1;
    }

    @Test(expected = ClassCastException.class)
    public void floatsAreNoInts() {
        int[] of = (int[]) hidden(new float[3]);
        of[0] = 1;
    }

    @Test(expected = ClassCastException.class)
    public void textsAreNoNumbers() {
        Number[] of = (Number[]) hidden(new String[1]);
        of[0] = 1;
    }

    @Test(expected = ClassCastException.class)
    public void objectsAreNoNumbers() {
        Number[] of = (Number[]) hidden(new Object[1]);
        of[0] = 1;
    }

    @Test
    public void boxesAreNumbers() {
        assertEquals(4.0, ((Number[]) hidden(new Integer[] {4}))[0].doubleValue(), 0);
        assertEquals(1, ((Number[]) hidden(new Number[] {1.5f}))[0].intValue());
        assertTrue(hidden(new Double[1]) instanceof Number[]);
        assertFalse(hidden(new String[1]) instanceof Number[]);
        assertTrue(hidden(1) instanceof Number);
        assertFalse(hidden('a') instanceof Number);
        assertTrue(Number.class.isInstance(1.5));
        assertFalse(Number.class.isInstance("a"));
    }

    @Test
    public void instances() {
        Object doubles = new double[2];
        Object longs = new long[2];
        Object floats = new float[1];
        Object ints = new int[1];
        assertTrue(doubles instanceof double[]);
        assertFalse(doubles instanceof long[]);
        assertFalse(longs instanceof double[]);
        assertTrue(longs instanceof long[]);
        assertTrue(floats instanceof float[]);
        assertFalse(floats instanceof int[]);
        assertFalse(ints instanceof float[]);
        assertTrue(ints instanceof int[]);
        assertFalse(hidden(null) instanceof double[]);
        assertNull((double[]) hidden(null));
        Object[] rows = new double[2][3];
        assertTrue(rows[1] instanceof double[]);
        assertFalse((Object) rows instanceof long[][]);
    }

    @Test
    public void classes() throws Exception {
        Object of = new double[2];
        assertEquals("[D", of.getClass().getName());
        assertEquals("double[]", of.getClass().getSimpleName());
        assertSame(double.class, of.getClass().getComponentType());
        assertSame(double[].class, of.getClass());
        assertNotSame(long[].class, of.getClass());
        assertTrue(of.getClass().isArray());
        assertEquals("[[F", new float[1][].getClass().getName());
        assertSame(double[].class, Class.forName("[D"));
        assertTrue(double[].class.isInstance(of));
        assertFalse(long[].class.isInstance(of));
        assertFalse(double[].class.isInstance(new long[1]));
        assertEquals("[Ljava.lang.Number;", hidden(new Number[1]).getClass().getName());
    }

    @Test(expected = ClassCastException.class)
    public void castsByClass() {
        long[].class.cast(new double[1]);
    }

    @Test
    public void classesOfNumbers() throws Exception {
        assertSame(Double.TYPE, double.class);
        assertNotSame(double.class, long.class);
        assertEquals("double", double.class.getName());
        assertTrue(float.class.isPrimitive());
        assertEquals("java.lang.Double", hidden(1.5).getClass().getName());
        assertEquals("class java.lang.Float", Float.class.toString());
        assertEquals("java.lang.Number", Number.class.getName());
        assertSame(Double.class, Class.forName("java.lang.Double"));
        assertTrue(Number.class.isAssignableFrom(Double.class));
    }

    @Test
    public void reflectedArrays() {
        Object of = Array.newInstance(double.class, 3);
        assertTrue(of instanceof double[]);
        assertEquals(3, Array.getLength(of));
        assertTrue(Array.newInstance(double[].class, 3) instanceof double[][]);
        assertEquals(2, ((double[][]) Array.newInstance(double.class, 3, 2))[1].length);
        Array.set(of, 1, 2.5f);
        assertEquals(2.5, Array.get(of, 1));
        assertEquals(2.5, Array.getDouble(of, 1), 0);
    }

    @Test(expected = IllegalArgumentException.class)
    public void doublesDoNotGoIntoFloats() {
        Array.set(new float[1], 0, 1.5);
    }

    @Test(expected = IllegalArgumentException.class)
    public void doublesDoNotGoIntoLongs() {
        Array.set(new long[1], 0, 1.5);
    }
}
