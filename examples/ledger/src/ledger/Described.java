package ledger;

/** Something that a statement has a line for. */
public interface Described {
    String title();

    long cents();

    default String describe() {
        return title() + ' ' + Cents.show(cents());
    }
}
