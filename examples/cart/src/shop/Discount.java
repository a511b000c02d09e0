package shop;

import java.util.List;

/** What is taken off the sum of a cart. */
public interface Discount {
    String name();

    /** The cents that are taken off: never more than the lines cost. */
    int cents(List<Line> lines);
}
