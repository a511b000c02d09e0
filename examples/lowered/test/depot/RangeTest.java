package depot;

import static org.junit.jupiter.api.Assertions.assertEquals;
import static org.junit.jupiter.api.Assertions.assertThrows;

import java.util.ArrayList;
import java.util.Arrays;
import java.util.Iterator;
import java.util.List;
import org.junit.jupiter.api.Nested;
import org.junit.jupiter.api.RepeatedTest;
import org.junit.jupiter.api.Test;

class RangeTest {
    @Test
    void holds() {
        List<Integer> twice = new Range(1, 4, Range::twice);
        assertEquals(Arrays.asList(2, 4, 6), twice, () -> "twice");
        assertEquals(1, twice.indexOf(4));
        assertEquals("[2, 4, 6]", twice.toString());
    }

    @RepeatedTest(2)
    void isEmpty() {
        assertEquals(0, new Range(4, 1, of -> of).size());
    }

    @Nested
    class Bounds {
        private final int last = 3;

        @Test
        void throwsOutside() {
            Range range = new Range(0, last, of -> of + last);
            assertEquals(5, range.get(2));
            assertThrows(IndexOutOfBoundsException.class, () -> range.get(last));
            assertThrows(IndexOutOfBoundsException.class, () -> range.get(-1));
        }

        @Test
        void isCopied() {
            List<Integer> copy = new ArrayList<>(new Range(0, last, of -> of));
            Iterator<Integer> walk = copy.iterator();
            walk.next();
            walk.remove();
            copy.addAll(Arrays.asList(7, 8));
            assertEquals(Arrays.asList(1, 2, 7, 8), copy);
        }
    }
}
