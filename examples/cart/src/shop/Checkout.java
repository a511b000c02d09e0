package shop;

import java.util.ArrayList;
import java.util.List;

/** Takes the money for carts and keeps the receipts. */
public class Checkout {
    /** Something that takes money, or throws where it can't. */
    public interface Purse {
        void pay(int cents);
    }

    private final List<String> receipts = new ArrayList<>();
    private int taken;
    private boolean busy;

    /** Empties the cart only where it is paid. */
    public String pay(Cart cart, Purse purse) {
        if (cart.isEmpty()) {
            throw new IllegalStateException("nothing to pay");
        }
        busy = true;
        try {
            int total = cart.total();
            String receipt = new Receipt(cart).text();
            purse.pay(total);
            taken += total;
            receipts.add(receipt);
            cart.lines().clear();
            return receipt;
        } finally {
            busy = false;
        }
    }

    public int taken() {
        return taken;
    }

    public boolean isBusy() {
        return busy;
    }

    public List<String> receipts() {
        return receipts;
    }
}
