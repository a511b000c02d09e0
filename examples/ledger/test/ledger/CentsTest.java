package ledger;

import static org.junit.jupiter.api.Assertions.assertEquals;
import static org.junit.jupiter.api.Assertions.fail;

import org.junit.jupiter.api.Test;

class CentsTest {
    @Test
    void readsAmounts() {
        assertEquals(1250, Cents.parse("12.50"));
        assertEquals(1250, Cents.parse("12.5"));
        assertEquals(1200, Cents.parse("12"));
        assertEquals(-5, Cents.parse("-0.05"));
    }

    @Test
    void readsLargeAmounts() {
        assertEquals(123456789012345L, Cents.parse("1234567890123.45"));
    }

    @Test
    void refusesOtherTexts() {
        refuses("");
        refuses("-");
        refuses(".50");
        refuses("1.234");
        refuses("1x");
        refuses("1.-5");
    }

    private static void refuses(String text) {
        try {
            Cents.parse(text);
        } catch (NumberFormatException refused) {
            return;
        }
        fail(text);
    }

    @Test
    void showsAmounts() {
        assertEquals("12.50", Cents.show(1250));
        assertEquals("0.07", Cents.show(7));
        assertEquals("-0.07", Cents.show(-7));
        assertEquals("-1,234.50", Cents.show(-123450));
        assertEquals("1,000,000.00", Cents.show(100000000));
    }

    @Test
    void addsWithin64Bits() {
        assertEquals(Long.MAX_VALUE, Cents.plus(Long.MAX_VALUE - 1, 1));
        assertEquals(-1, Cents.plus(Long.MAX_VALUE, Long.MIN_VALUE));
        try {
            Cents.plus(Long.MAX_VALUE, 1);
            fail("past 64 bits");
        } catch (ArithmeticException refused) {
            assertEquals("an amount past 64 bits", refused.getMessage());
        }
    }

    @Test
    void takesShares() {
        assertEquals(3, Cents.share(1000, 25));
        assertEquals(2, Cents.share(999, 25));
        assertEquals(-3, Cents.share(-1000, 25));
        assertEquals(2500000000L, Cents.share(1000000000000L, 25));
    }
}
