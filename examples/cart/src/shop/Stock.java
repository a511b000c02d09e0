package shop;

import java.util.HashMap;
import java.util.Map;

/** How many pieces of each article the shop has. */
public class Stock {
    private final Map<Article, Integer> pieces = new HashMap<>();

    public int of(Article article) {
        Integer count = pieces.get(article);
        return count == null ? 0 : count;
    }

    public void put(Article article, int count) {
        pieces.put(article, of(article) + count);
    }

    public void take(Article article, int count) {
        int left = of(article);
        if (count > left) {
            throw new OutOfStockException(article, left);
        }
        if (count == left) {
            pieces.remove(article);
        } else {
            pieces.put(article, left - count);
        }
    }
}
