package forms;

import static org.junit.Assert.assertEquals;
import static org.junit.Assert.assertFalse;
import static org.junit.Assert.assertTrue;
import static org.junit.Assert.fail;

import java.util.ArrayList;
import java.util.Arrays;
import java.util.Collections;
import java.util.HashMap;
import java.util.List;
import java.util.Map;
import java.util.Random;
import org.junit.Test;

/** What floats, boxes and texts of them are. */
public class ValuesTest {
    public static final double HALF = 0.5;
    public static final float THIRD = 1f / 3;

    @Test
    public void comparisons() {
        double nan = Double.NaN;
        assertFalse(nan < 1);
        assertFalse(nan > 1);
        assertFalse(nan == nan);
        assertTrue(nan != nan);
        assertTrue(!(nan <= 1));
        float none = Float.NaN;
        assertFalse(none >= 0);
        assertFalse(none < 0);
        assertTrue(0.0 == -0.0);
        assertTrue(1 / 0.0 > 1 / -0.0);
    }

    @Test
    public void conversions() {
        double huge = 1e20;
        float half = 70000.5f;
        assertEquals(Integer.MAX_VALUE, (int) huge);
        assertEquals(Long.MIN_VALUE, (long) (huge * -1e10));
        assertEquals(0, (int) Double.NaN);
        assertEquals((short) 4464, (short) half);
        assertEquals('\uffff', (char) huge);
        int whole = 5;
        whole += 1.7;
        assertEquals(6, whole);
        whole *= HALF;
        assertEquals(3, whole);
        float next = 1;
        next++;
        next -= 0.1;
        assertEquals(1.9f, next, 0);
        long most = Long.MAX_VALUE;
        assertEquals(9223372036854775807f, (float) most, 0);
        char letter = 'a';
        assertEquals(97.5, letter + .5, 0);
        assertEquals(-1.5, -5.5 % 2, 0);
        assertEquals(.33333334f, THIRD, 0);
        Object mixed = whole == 3 ? 1 : 2.0;
        assertEquals(1.0, mixed);
    }

    @Test
    public void boxes() {
        assertFalse(Double.valueOf(0.0).equals(-0.0));
        assertTrue(Double.valueOf(Double.NaN).equals(Double.NaN));
        Object one = 1.0;
        assertFalse(one.equals(1f));
        assertFalse(one.equals(4607182418800017408L));
        Map<Object, String> map = new HashMap<>();
        map.put(1.0, "double");
        map.put(1L, "long");
        map.put(1f, "float");
        map.put(1, "int");
        assertEquals(4, map.size());
        assertEquals("float", map.get(1f));
        List<Double> list = new ArrayList<>(Arrays.asList(2.5, -0.0, 0.0, Double.NaN, -1.0));
        Collections.sort(list);
        assertEquals("[-1.0, -0.0, 0.0, 2.5, NaN]", list.toString());
        Number[] all = {1, 2L, 1.5, 2.5f, (short) 3};
        double sum = 0;
        for (Number number : all) {
            sum += number.doubleValue();
        }
        assertEquals(10, sum, 0);
    }

    @Test(expected = NullPointerException.class)
    public void noBox() {
        Double none = null;
        double of = none;
        fail("" + of);
    }

    @Test(expected = ClassCastException.class)
    public void aLongIsNoDouble() {
        Object of = 1L;
        assertEquals(1, ((Double) of).intValue());
    }

    @Test
    public void texts() {
        double huge = 1e21;
        float large = 1e10f;
        double zero = -0.0;
        assertEquals("1.0E21 1.0E10 -0.0 NaN 100.0 0.001 1.0E-4", huge + " " + large + " " + zero + " " + zero / 0 + " " + huge / 1e19 + " " + 0.001 + " "
            + large / 1e14f);
        assertEquals("3.51.52.5x", new StringBuilder().append(1.5).append(2.5f).append('x').insert(0, 3.5).toString());
        assertEquals("  1.5|1.500e+00", String.format("%5.1f|%.3e", 1.5, 1.5));
        assertEquals("[1.0, 2.5]", Arrays.toString(new float[] {1, 2.5f}));
        try {
            Double.parseDouble("x");
            fail();
        } catch (NumberFormatException unread) {
            assertEquals("For input string: \"x\"", unread.getMessage());
        }
    }

    @Test
    public void bits() {
        assertEquals(0x3ff8000000000000L, Double.doubleToLongBits(1.5));
        assertEquals(0x7ff8000000000000L, Double.doubleToLongBits(Double.longBitsToDouble(0x7ff0000000000001L)));
        assertEquals(0x7ff0000000000001L, Double.doubleToRawLongBits(Double.longBitsToDouble(0x7ff0000000000001L)));
        assertEquals(0x3fc00000, Float.floatToIntBits(1.5f));
        assertEquals("0x1.8p0", Double.toHexString(1.5));
    }

    @Test
    public void functions() {
        assertEquals(2, Math.round(1.5));
        assertEquals(-1, Math.round(-1.5));
        assertEquals(2.0, Math.rint(2.5), 0);
        assertEquals(1.4142135623730951, Math.sqrt(2), 0);
        assertEquals(8, Math.pow(2, 3), 0);
        assertTrue(1 / Math.min(0.0, -0.0) < 0);
        assertTrue(Double.isNaN(Math.max(1, Double.NaN)));
        assertEquals(2.220446049250313E-16, Math.ulp(1.0), 0);
        assertEquals(Double.MIN_VALUE, Math.nextUp(0.0), 0);
        assertEquals(0.7275636800328681, new Random(42).nextDouble(), 0);
        assertEquals(1.1419053154730547, new Random(42).nextGaussian(), 0);
    }
}
