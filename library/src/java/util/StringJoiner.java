package java.util;

/** Texts with something between, before and behind them. */
public final class StringJoiner {
    private final String before;
    private final String between;
    private final String behind;
    private String joined;
    private String empty;

    public StringJoiner(CharSequence between) {
        this(between, "", "");
    }

    public StringJoiner(CharSequence between, CharSequence before, CharSequence behind) {
        Objects.requireNonNull(before, "The prefix must not be null");
        Objects.requireNonNull(between, "The delimiter must not be null");
        Objects.requireNonNull(behind, "The suffix must not be null");
        this.before = before.toString();
        this.between = between.toString();
        this.behind = behind.toString();
    }

    public StringJoiner setEmptyValue(CharSequence to) {
        empty = Objects.requireNonNull(to, "The empty value must not be null").toString();
        return this;
    }

    public StringJoiner add(CharSequence next) {
        String text = String.valueOf(next);
        joined = joined == null ? text : joined + between + text;
        return this;
    }

    public StringJoiner merge(StringJoiner other) {
        Objects.requireNonNull(other);
        return other.joined == null ? this : add(other.joined);
    }

    public int length() {
        return toString().length();
    }

    @Override
    public String toString() {
        return joined == null && empty != null ? empty : before + (joined == null ? "" : joined) + behind;
    }
}
