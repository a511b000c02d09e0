package shop;

import java.util.List;

/** Each third piece of one article is free. */
public class ThreeForTwo implements Discount {
    private final Article article;

    public ThreeForTwo(Article article) {
        this.article = article;
    }

    @Override
    public String name() {
        return "3 for 2";
    }

    @Override
    public int cents(List<Line> lines) {
        for (Line line : lines) {
            if (line.article().equals(article)) {
                return line.count() / 3 * article.cents();
            }
        }
        return 0;
    }
}
