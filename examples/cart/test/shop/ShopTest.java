package shop;

import org.junit.Before;

/** A shop with three articles, for the tests of all classes. */
public abstract class ShopTest {
    protected final Article tea = new Article("T1", "tea", 350);
    protected final Article cup = new Article("C1", "cup", 899);
    protected final Article milk = new Article("M1", "milk", 105);
    protected Stock stock;
    protected Cart cart;

    @Before
    public void openShop() {
        stock = new Stock();
        stock.put(tea, 10);
        stock.put(cup, 4);
        stock.put(milk, 1);
        cart = new Cart(stock);
    }
}
