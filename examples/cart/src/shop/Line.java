package shop;

/** Pieces of one article in a cart. */
public class Line {
    private final Article article;
    private int count;

    Line(Article article, int count) {
        this.article = article;
        this.count = count;
    }

    public Article article() {
        return article;
    }

    public int count() {
        return count;
    }

    public int cents() {
        return article.cents() * count;
    }

    void change(int by) {
        count += by;
    }
}
