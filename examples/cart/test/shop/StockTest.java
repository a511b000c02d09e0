package shop;

import static org.junit.Assert.assertEquals;
import static org.junit.Assert.fail;

import org.junit.Test;

public class StockTest extends ShopTest {
    @Test
    public void knowsItsPieces() {
        assertEquals(10, stock.of(tea));
        stock.put(tea, 5);
        assertEquals(15, stock.of(tea));
        assertEquals(0, stock.of(new Article("X", "nothing", 1)));
    }

    @Test
    public void givesPieces() {
        stock.take(tea, 3);
        assertEquals(7, stock.of(tea));
        stock.take(milk, 1);
        assertEquals(0, stock.of(milk));
    }

    @Test
    public void tellsWhatIsLeft() {
        try {
            stock.take(cup, 5);
            fail("there are four cups");
        } catch (OutOfStockException refused) {
            assertEquals(4, refused.left());
            assertEquals("only 4 of cup (C1) left", refused.getMessage());
        }
        assertEquals(4, stock.of(cup));
    }
}
