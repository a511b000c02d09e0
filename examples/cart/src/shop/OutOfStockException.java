package shop;

/** That fewer pieces of an article are there than are asked for. */
public class OutOfStockException extends RuntimeException {
    private static final long serialVersionUID = 1;

    private final int left;

    public OutOfStockException(Article article, int left) {
        super("only " + left + " of " + article + " left");
        this.left = left;
    }

    public int left() {
        return left;
    }
}
