package shop;

import static org.junit.Assert.assertEquals;
import static org.junit.Assert.assertFalse;
import static org.junit.Assert.assertTrue;
import static org.junit.Assert.fail;

import org.junit.After;
import org.junit.Before;
import org.junit.Test;

public class CheckoutTest extends ShopTest {
    /** A purse with so many cents. */
    private static class Coins implements Checkout.Purse {
        private int cents;

        Coins(int cents) {
            this.cents = cents;
        }

        @Override
        public void pay(int price) {
            if (price > cents) {
                throw new IllegalStateException("too poor");
            }
            cents -= price;
        }
    }

    private Checkout checkout;

    @Before
    public void open() {
        checkout = new Checkout();
    }

    @After
    public void isDone() {
        assertFalse(checkout.isBusy());
    }

    @Test
    public void writesAReceipt() {
        cart.add(tea, 3);
        cart.add(milk, 1);
        cart.grant(new PercentOff(10, 0));
        cart.grant(new ThreeForTwo(cup));
        Coins coins = new Coins(2000);
        String receipt = checkout.pay(cart, coins);
        assertEquals("3 tea..............10.50\n1 milk..............1.05\n10% off............-1.16\nTOTAL..............10.39\n", receipt);
        assertEquals(2000 - 1039, coins.cents);
    }

    @Test
    public void keepsReceiptsAndMoney() {
        cart.add(milk, 1);
        checkout.pay(cart, new Coins(200));
        cart.add(cup, 1);
        String last = checkout.pay(cart, new Coins(899));
        assertEquals(1004, checkout.taken());
        assertEquals(2, checkout.receipts().size());
        assertEquals(last, checkout.receipts().get(1));
        assertTrue(cart.isEmpty());
        assertEquals(3, stock.of(cup));
    }

    @Test
    public void leavesACartThatIsNotPaid() {
        cart.add(cup, 2);
        try {
            checkout.pay(cart, new Coins(1000));
            fail();
        } catch (IllegalStateException refused) {
            assertEquals("too poor", refused.getMessage());
        }
        assertEquals(2, cart.count(cup));
        assertEquals(0, checkout.taken());
        assertTrue(checkout.receipts().isEmpty());
    }

    @Test(expected = IllegalStateException.class)
    public void takesNoMoneyForNothing() {
        checkout.pay(cart, new Coins(1000));
    }

    @Test
    public void showsCents() {
        assertEquals("0.05", Receipt.amount(5));
        assertEquals("12.30", Receipt.amount(1230));
        assertEquals("-0.99", Receipt.amount(-99));
    }
}
