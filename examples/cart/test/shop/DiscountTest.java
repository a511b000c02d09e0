package shop;

import static org.junit.Assert.assertEquals;

import java.util.List;
import org.junit.Before;
import org.junit.Test;

public class DiscountTest extends ShopTest {
    @Before
    public void fill() {
        cart.add(tea, 7);
        cart.add(cup, 1);
    }

    @Test
    public void takesPercents() {
        cart.grant(new PercentOff(10, 1000));
        assertEquals(3349 - 335, cart.total());
    }

    @Test
    public void takesNothingFromASmallSum() {
        cart.grant(new PercentOff(10, 5000));
        assertEquals(3349, cart.total());
    }

    @Test
    public void givesEachThirdPiece() {
        Discount discount = new ThreeForTwo(tea);
        cart.grant(discount);
        assertEquals(3349 - 700, cart.total());
        assertEquals("3 for 2", discount.name());
    }

    @Test
    public void givesNothingForOtherArticles() {
        cart.grant(new ThreeForTwo(milk));
        assertEquals(3349, cart.total());
    }

    @Test
    public void isGrantedOnce() {
        Discount discount = new ThreeForTwo(tea);
        cart.grant(discount);
        cart.grant(discount);
        assertEquals(1, cart.discounts().size());
    }

    @Test
    public void neverGivesMoney() {
        cart.grant(new Discount() {
            @Override
            public String name() {
                return "a gift";
            }

            @Override
            public int cents(List<Line> lines) {
                return 10000;
            }
        });
        assertEquals(0, cart.total());
    }

    @Test(expected = IllegalArgumentException.class)
    public void takesNoMoreThanAll() {
        new PercentOff(101, 0);
    }
}
