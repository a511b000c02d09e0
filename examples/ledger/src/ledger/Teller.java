package ledger;

/** Does what orders in words say to one account. */
public class Teller {
    private final Account account;
    private int refused;

    public Teller(Account account) {
        this.account = account;
    }

    /** `in 12.50`, `out 3`, `close 25`, `balance` or `last`; the answer is a line of text. */
    public String obey(String order) {
        int space = order.indexOf(' ');
        String word = space < 0 ? order : order.substring(0, space);
        String rest = space < 0 ? "" : order.substring(space + 1);
        try {
            switch (word) {
                case "in":
                case "out":
                    return account.post(Kind.of(word), Cents.parse(rest)).label();
                case "close":
                    account.close(Integer.parseInt(rest));
                    return balance();
                case "balance":
                    return balance();
                case "last":
                    return last();
                default:
                    refused++;
                    return "? " + word;
            }
        } catch (OverdrawnException overdrawn) {
            refused++;
            return "refused: " + overdrawn.getMessage();
        } catch (NumberFormatException wrong) {
            refused++;
            return "no number";
        }
    }

    public int refused() {
        return refused;
    }

    private String balance() {
        return Cents.show(account.balance());
    }

    private String last() {
        for (Entry entry : account) {
            return entry.label() + ' ' + entry.describe();
        }
        return "nothing yet";
    }
}
