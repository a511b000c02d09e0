package ledger;

import static org.junit.jupiter.api.Assertions.assertEquals;
import static org.junit.jupiter.api.Assertions.assertSame;
import static org.junit.jupiter.api.Assertions.fail;

import org.junit.jupiter.api.Test;

class KindTest {
    @Test
    void isKnownByItsWord() {
        for (Kind kind : Kind.values()) {
            assertSame(kind, Kind.of(kind.word()));
        }
    }

    @Test
    void thereAreFour() {
        assertEquals(4, Kind.values().length);
    }

    @Test
    void noOtherWordIsOne() {
        try {
            Kind.of("gift");
            fail("no kind");
        } catch (IllegalArgumentException refused) {
            assertEquals("no kind of entry: gift", refused.getMessage());
        }
    }

    @Test
    void givesOrTakes() {
        assertEquals(5, Kind.DEPOSIT.change(5));
        assertEquals(-5, Kind.WITHDRAWAL.change(5));
        assertEquals(-5, Kind.FEE.change(5));
    }
}
