package forms;

import static org.junit.Assert.assertEquals;
import static org.junit.Assert.assertSame;

import org.junit.Test;

/** What can't be had: each of these is left out, with a reason. */
public class RefusedTest {
    @Test
    public void fieldsOfOneName() {
        assertEquals(2.5f, new Fields().get(), 0);
    }

    @Test
    public void namesThatAreMade() {
        assertEquals(3, new Names().max(2.0, 3.0), 0);
    }

    @Test
    public void namesThatAreMadeAbove() {
        assertEquals(1, new Names.Below().ask(2), 0);
    }

    @Test
    public void methodsByTypes() throws Exception {
        assertEquals(3.0, Which.class.getMethod("sum", double[].class).invoke(null, new double[] {1, 2}));
    }

    @Test(expected = NoSuchMethodException.class)
    public void methodsByTheTypesThatStandForThem() throws Exception {
        Which.class.getMethod("sum", long[].class);
    }

    @Test
    public void typesOfFields() throws Exception {
        assertSame(double.class, Square.class.getDeclaredField("side").getType());
    }

    @Test
    public void fourDimensions() {
        double[][][][] of = new double[1][1][1][1];
        of[0][0][0][0] = 2;
        assertEquals(2, of[0][0][0][0], 0);
    }

    @Test
    public void twoDimensionsOfNumbers() {
        Number[][] of = new Number[1][1];
        of[0][0] = 2.5;
        assertEquals(2.5, of[0][0].doubleValue(), 0);
    }
}
