package shop;

/** What the shop sells, known by its code. Prices are whole cents. */
public final class Article {
    private final String code;
    private final String name;
    private final int cents;

    public Article(String code, String name, int cents) {
        if (code.isEmpty()) {
            throw new IllegalArgumentException("an article needs a code");
        }
        if (cents < 0) {
            throw new IllegalArgumentException("the price of " + name + " is below nothing");
        }
        this.code = code;
        this.name = name;
        this.cents = cents;
    }

    public String code() {
        return code;
    }

    public String name() {
        return name;
    }

    public int cents() {
        return cents;
    }

    @Override
    public boolean equals(Object other) {
        return other instanceof Article && ((Article) other).code.equals(code);
    }

    @Override
    public int hashCode() {
        return code.hashCode();
    }

    @Override
    public String toString() {
        return name + " (" + code + ")";
    }
}
