package depot;

import static org.junit.Assert.assertArrayEquals;
import static org.junit.Assert.assertEquals;
import static org.junit.Assert.assertFalse;
import static org.junit.Assert.assertTrue;

import java.util.Arrays;
import java.util.Collections;
import java.util.List;
import org.junit.Test;

public class WeightTest {
    @Test
    public void halves() {
        assertEquals(3, Weight.half(7L));
        assertEquals(3.5, Weight.half(7.0), 0);
        assertEquals(Double.MIN_VALUE, Weight.half(Double.MIN_VALUE * 2), 0);
        assertEquals(1.75f, Weight.half(3.5f), 0f);
    }

    @Test
    public void spreads() {
        assertArrayEquals(new double[] {5, 2}, Weight.spread(2, 4, 4, 4, 5, 5, 7, 9), 1e-12);
        assertTrue(Double.isNaN(Weight.spread()[0]));
    }

    @Test
    public void kinds() {
        assertEquals("longs 2", Weight.kind(new long[2]));
        assertEquals("doubles 0.1", Weight.kind(new double[] {0.1}.clone()));
        assertEquals("floats 3", Weight.kind(new float[2][3]));
        assertEquals("none", Weight.kind(new int[1]));
        assertEquals("[[1.5, NaN], [-0.0]]", Arrays.deepToString(new double[][] {{1.5, 0.0 / 0}, {-0.0}}));
    }

    @Test
    public void makes() {
        assertEquals(1e6, new Weight(5000000L).doubleValue(), 0);
        assertEquals(5e6, new Weight(5000000.0).doubleValue(), 0);
        assertEquals(12L, Weight.parse("1.15e1").longValue());
        assertEquals(11, Weight.parse("1.15e1").intValue());
        assertTrue(new Weight(0.1f).isAbove(new Weight(0.1)));
        assertFalse(Weight.NONE.isAbove(new Weight(-0.0)));
    }

    @Test
    public void changes() {
        assertEquals(Math.exp(2), new Weight(2.0).changed(Math::exp).doubleValue(), 1e-15);
        assertEquals(0.30000000000000004, new Weight(0.1).changed(of -> of + 0.2).doubleValue(), 0);
        assertEquals("0.25 g, 0.083333336, -0.25", new Weight(0.25).toString());
    }

    @Test
    public void compares() {
        List<Weight> all = Arrays.asList(new Weight(2.0), new Weight(Double.NaN), new Weight(-1.0));
        Collections.sort(all);
        assertEquals(-1f, all.get(0).floatValue(), 0f);
        assertEquals(Double.valueOf(Double.NaN), (Object) all.get(2).doubleValue());
        Number boxed = 2.5f;
        assertEquals(2, boxed.intValue());
        assertEquals(7.0, ((Number) Integer.valueOf(7)).doubleValue(), 0);
    }
}
