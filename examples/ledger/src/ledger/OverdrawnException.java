package ledger;

/** That an account may not owe so much. */
public class OverdrawnException extends RuntimeException {
    private static final long serialVersionUID = 1;

    private final long missing;

    OverdrawnException(Account account, long missing) {
        super(account.owner() + " lacks " + Cents.show(missing));
        this.missing = missing;
    }

    public long missing() {
        return missing;
    }
}
