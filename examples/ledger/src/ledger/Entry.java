package ledger;

/** One movement of an account. */
public class Entry implements Numbered, Described {
    private final int number;
    private final Kind kind;
    private final long amount;

    Entry(int number, Kind kind, long amount) {
        this.number = number;
        this.kind = kind;
        this.amount = amount;
    }

    @Override
    public int number() {
        return number;
    }

    public Kind kind() {
        return kind;
    }

    @Override
    public String title() {
        switch (kind) {
            case DEPOSIT:
                return "paid in";
            case WITHDRAWAL:
                return "paid out";
            case INTEREST:
                return "interest";
            default:
                return "fee";
        }
    }

    /** What it changes the balance by. */
    @Override
    public long cents() {
        return kind.change(amount);
    }
}
