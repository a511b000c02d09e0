package ledger;

/** Something that has a number, and so an order. */
public interface Numbered {
    int number();

    default boolean isBefore(Numbered other) {
        return Integer.compare(number(), other.number()) < 0;
    }

    /** `#007` */
    default String label() {
        String digits = Integer.toString(number());
        StringBuilder label = new StringBuilder("#");
        for (int missing = 3 - digits.length(); missing > 0; missing--) {
            label.append('0');
        }
        return label.append(digits).toString();
    }
}
