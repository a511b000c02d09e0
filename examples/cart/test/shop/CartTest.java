package shop;

import static org.junit.Assert.assertEquals;
import static org.junit.Assert.assertFalse;
import static org.junit.Assert.assertSame;
import static org.junit.Assert.assertTrue;
import static org.junit.Assert.fail;

import java.util.NoSuchElementException;
import org.junit.Test;

public class CartTest extends ShopTest {
    @Test
    public void beginsEmpty() {
        assertTrue(cart.isEmpty());
        assertEquals(0, cart.total());
        assertFalse(cart.dearest().isPresent());
    }

    @Test
    public void takesFromTheStock() {
        cart.add(tea, 2);
        cart.add(cup, 1);
        assertFalse(cart.isEmpty());
        assertEquals(8, stock.of(tea));
        assertEquals(2 * 350 + 899, cart.sum());
    }

    @Test
    public void hasOneLineForAnArticle() {
        cart.add(tea, 2);
        cart.add(tea, 3);
        assertEquals(1, cart.lines().size());
        assertEquals(5, cart.count(tea));
        assertEquals(0, cart.count(cup));
    }

    @Test
    public void addsNothingThatIsNotThere() {
        try {
            cart.add(milk, 2);
            fail();
        } catch (OutOfStockException refused) {
            assertTrue(cart.isEmpty());
            assertEquals(1, stock.of(milk));
        }
    }

    @Test(expected = IllegalArgumentException.class)
    public void addsNoFewerThanOne() {
        cart.add(tea, 0);
    }

    @Test
    public void putsBack() {
        cart.add(tea, 3);
        cart.remove(tea, 1);
        assertEquals(2, cart.count(tea));
        assertEquals(8, stock.of(tea));
        cart.remove(tea, 2);
        assertTrue(cart.isEmpty());
        assertEquals(10, stock.of(tea));
    }

    @Test(expected = NoSuchElementException.class)
    public void removesNoMoreThanItHas() {
        cart.add(tea, 3);
        cart.remove(tea, 4);
    }

    @Test(expected = NoSuchElementException.class)
    public void removesNothingThatItHasNot() {
        cart.remove(tea, 1);
    }

    @Test
    public void clears() {
        cart.add(tea, 3);
        cart.add(milk, 1);
        cart.clear();
        assertTrue(cart.isEmpty());
        assertEquals(10, stock.of(tea));
        assertEquals(1, stock.of(milk));
    }

    @Test
    public void holdsFiveArticles() {
        for (int number = 0; number < Cart.MOST_LINES; number++) {
            Article book = new Article("B" + number, "book", 500);
            stock.put(book, 1);
            cart.add(book, 1);
        }
        try {
            cart.add(tea, 1);
            fail();
        } catch (IllegalStateException refused) {
            assertEquals(10, stock.of(tea));
        }
        assertEquals(5 * 500, cart.total());
    }

    @Test
    public void knowsTheDearestLine() {
        cart.add(tea, 2);
        cart.add(cup, 1);
        cart.add(milk, 1);
        assertSame(cup, cart.dearest().get().article());
    }
}
