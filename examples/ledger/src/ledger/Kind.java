package ledger;

/** What an entry is, and what it does to a balance. */
public enum Kind {
    DEPOSIT("in") {
        @Override
        public long change(long cents) {
            return cents;
        }
    },
    WITHDRAWAL("out") {
        @Override
        public long change(long cents) {
            return -cents;
        }
    },
    FEE("fee") {
        @Override
        public long change(long cents) {
            return -cents;
        }
    },
    INTEREST("interest") {
        @Override
        public long change(long cents) {
            return cents;
        }
    };

    private final String word;

    Kind(String word) {
        this.word = word;
    }

    public abstract long change(long cents);

    public String word() {
        return word;
    }

    /** The kind with this word in an order. */
    public static Kind of(String word) {
        for (Kind kind : values()) {
            if (kind.word.equals(word)) {
                return kind;
            }
        }
        throw new IllegalArgumentException("no kind of entry: " + word);
    }
}
