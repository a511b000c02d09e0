import static org.junit.Assert.assertEquals;

import org.junit.Test;

public class SizeTest {
    @Test
    public void hasTwo() {
        assertEquals(2, Size.values().length);
    }
}
