package frost;

import static org.junit.Assert.assertFalse;
import static org.junit.Assert.assertTrue;

import org.junit.Test;

public class ThermometerTest {
    private static boolean same(int one, int other) {
        if (one == other) {
            return true;
        }
        return false;
    }

    @Test
    public void belowZeroIsFrost() {
        assertTrue(Thermometer.isFrost(-1));
    }

    @Test
    public void zeroIsNoFrost() {
        assertFalse(Thermometer.isFrost(0));
    }

    @Test
    public void theMiddleIsBetween() {
        assertTrue(Thermometer.isBetween(4, 2, 8));
    }

    @Test
    public void tooColdIsNotBetween() {
        assertFalse(Thermometer.isBetween(-18, 2, 8));
    }

    @Test
    public void fourDegreesTakeTwoHours() {
        assertTrue(same(Thermometer.hoursUntil(4, 0, 0), 2));
    }

    @Test
    public void aWarmRoomTakesNoTime() {
        assertTrue(same(Thermometer.hoursUntil(4, 9, 0), 0));
    }
}
