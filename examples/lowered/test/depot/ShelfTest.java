package depot;

import java.util.Arrays;
import junit.framework.TestCase;

public class ShelfTest extends TestCase {
    private Shelf shelf;

    public ShelfTest(String name) {
        super(name);
    }

    @Override
    protected void setUp() {
        shelf = new Shelf();
        shelf.put("nail", 5);
        shelf.put("screw", 7);
    }

    public void testCounts() {
        shelf.put("nail", 1);
        assertEquals("nails", 6, shelf.count(" nail "));
        assertEquals(0, shelf.count("hook"));
        assertEquals(13, shelf.total());
    }

    public void testNothingIsPut() {
        try {
            shelf.put("hook", 0);
            fail("should throw");
        } catch (IllegalArgumentException expected) {
            assertEquals("count 0", expected.getMessage());
        }
    }

    public void testClearBelow() {
        assertFalse(shelf.clearBelow(5));
        assertTrue("one is cleared", shelf.clearBelow(6));
        assertEquals(7, shelf.total());
    }

    public void testByCount() {
        shelf.put("hook", 5);
        assertEquals(Arrays.asList("screw", "hook", "nail"), shelf.byCount());
    }

    public void testMean() {
        assertEquals(6.0, shelf.mean(), 0.1);
    }

    public void testIsCrowded() {
        assertTrue(shelf.isCrowded(2));
    }
}
