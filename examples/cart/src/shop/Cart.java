package shop;

import java.util.ArrayList;
import java.util.List;
import java.util.NoSuchElementException;
import java.util.Optional;

/** What a customer is about to buy. What lies in the cart is taken from the stock. */
public class Cart {
    /** A customer's own limit of different articles. */
    public static final int MOST_LINES = 5;

    private final Stock stock;
    private final List<Line> lines = new ArrayList<>();
    private final List<Discount> discounts = new ArrayList<>();

    public Cart(Stock stock) {
        this.stock = stock;
    }

    public void add(Article article, int count) {
        if (count < 1) {
            throw new IllegalArgumentException("to add " + count);
        }
        Line line = lineOf(article);
        if (line == null && lines.size() >= MOST_LINES) {
            throw new IllegalStateException("the cart is full");
        }
        stock.take(article, count);
        if (line == null) {
            lines.add(new Line(article, count));
        } else {
            line.change(count);
        }
    }

    public void remove(Article article, int count) {
        if (count < 1) {
            throw new IllegalArgumentException("to remove " + count);
        }
        Line line = lineOf(article);
        if (line == null || line.count() < count) {
            throw new NoSuchElementException(count + " of " + article);
        }
        line.change(-count);
        if (line.count() == 0) {
            lines.remove(line);
        }
        stock.put(article, count);
    }

    /** Puts all back. */
    public void clear() {
        for (Line line : lines) {
            stock.put(line.article(), line.count());
        }
        lines.clear();
        discounts.clear();
    }

    public void grant(Discount discount) {
        if (!discounts.contains(discount)) {
            discounts.add(discount);
        }
    }

    public int count(Article article) {
        Line line = lineOf(article);
        return line == null ? 0 : line.count();
    }

    public boolean isEmpty() {
        return lines.isEmpty();
    }

    /** The line that costs the most; of several the first. */
    public Optional<Line> dearest() {
        Line dearest = null;
        for (Line line : lines) {
            if (dearest == null || line.cents() > dearest.cents()) {
                dearest = line;
            }
        }
        return Optional.ofNullable(dearest);
    }

    public List<Line> lines() {
        return lines;
    }

    public List<Discount> discounts() {
        return discounts;
    }

    public int sum() {
        int sum = 0;
        for (Line line : lines) {
            sum += line.cents();
        }
        return sum;
    }

    /** What is to be paid: the sum less all discounts, and never below nothing. */
    public int total() {
        int total = sum();
        for (Discount discount : discounts) {
            total -= discount.cents(lines);
        }
        return Math.max(total, 0);
    }

    private Line lineOf(Article article) {
        for (Line line : lines) {
            if (line.article().equals(article)) {
                return line;
            }
        }
        return null;
    }
}
