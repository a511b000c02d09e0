package ledger;

import java.util.ArrayList;
import java.util.Iterator;
import java.util.List;
import java.util.NoSuchElementException;

/** The entries of one customer, who may owe up to a limit. */
public class Account implements Iterable<Entry> {
    private static final long FEE = 150;

    private final String owner;
    private final long limit;
    private final List<Entry> entries = new ArrayList<>();
    private long balance;
    private int version;

    public Account(String owner, long limit) {
        this.owner = owner;
        this.limit = limit;
    }

    public String owner() {
        return owner;
    }

    public long balance() {
        return balance;
    }

    public int size() {
        return entries.size();
    }

    public Entry post(Kind kind, long amount) {
        if (amount <= 0) {
            throw new IllegalArgumentException("an amount of " + Cents.show(amount));
        }
        long after = Cents.plus(balance, kind.change(amount));
        if (kind == Kind.WITHDRAWAL && after < -limit) {
            throw new OverdrawnException(this, -limit - after);
        }
        Entry entry = new Entry(entries.size() + 1, kind, amount);
        entries.add(entry);
        balance = after;
        version++;
        return entry;
    }

    /** A month's end: interest for what is there, or a fee for what is owed. */
    public void close(int hundredths) {
        if (balance < 0) {
            post(Kind.FEE, FEE);
            return;
        }
        long interest = Cents.share(balance, hundredths);
        if (interest > 0) {
            post(Kind.INTEREST, interest);
        }
    }

    /** From the newest to the oldest. */
    @Override
    public Iterator<Entry> iterator() {
        return new Backwards();
    }

    /** Walks the entries, and sees where one is added meanwhile. */
    private class Backwards implements Iterator<Entry> {
        private final int seen = version;
        private int left = entries.size();

        @Override
        public boolean hasNext() {
            return left > 0;
        }

        @Override
        public Entry next() {
            if (seen != version) {
                throw new IllegalStateException("changed meanwhile");
            }
            if (left == 0) {
                throw new NoSuchElementException();
            }
            left--;
            return entries.get(left);
        }
    }

    /** The balance as it was after each entry. */
    public long[] history() {
        long[] history = new long[entries.size()];
        long sum = 0;
        for (int at = 0; at < history.length; at++) {
            sum += entries.get(at).cents();
            history[at] = sum;
        }
        return history;
    }
}
