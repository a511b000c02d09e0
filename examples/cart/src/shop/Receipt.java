package shop;

/** The text that a customer takes home. */
public class Receipt {
    private static final int WIDTH = 24;

    private final Cart cart;

    public Receipt(Cart cart) {
        this.cart = cart;
    }

    public String text() {
        StringBuilder text = new StringBuilder();
        for (Line line : cart.lines()) {
            row(text, line.count() + " " + line.article().name(), line.cents());
        }
        for (Discount discount : cart.discounts()) {
            int cents = discount.cents(cart.lines());
            if (cents > 0) {
                row(text, discount.name(), -cents);
            }
        }
        row(text, "TOTAL", cart.total());
        return text.toString();
    }

    private static void row(StringBuilder text, String what, int cents) {
        String amount = amount(cents);
        text.append(what);
        for (int at = what.length() + amount.length(); at < WIDTH; at++) {
            text.append('.');
        }
        text.append(amount).append('\n');
    }

    static String amount(int cents) {
        int whole = Math.abs(cents);
        String amount = whole / 100 + (whole % 100 < 10 ? ".0" : ".") + whole % 100;
        return cents < 0 ? "-" + amount : amount;
    }
}
