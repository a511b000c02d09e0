package java.nio.charset;

import java.util.Locale;

/** The charsets that each Java has. */
public abstract class Charset implements Comparable<Charset> {
    private static final String[] NAMES = {"UTF-8", "ISO-8859-1", "US-ASCII", "UTF-16", "UTF-16BE", "UTF-16LE"};
    private static final String[] OTHERS = {"utf8", "latin1", "ascii", "utf16", "iso8859_1", "iso_8859_1"};
    private static final int[] MEANT = {0, 1, 2, 3, 1, 1};
    private static final Charset[] ALL = new Charset[6];

    private final String name;

    protected Charset(String name, String[] aliases) {
        this.name = name;
    }

    private static final class Known extends Charset {
        Known(String name) {
            super(name, null);
        }

        @Override
        public boolean contains(Charset other) {
            return !name().equals("US-ASCII") && !name().equals("ISO-8859-1") || equals(other);
        }
    }

    private static int find(String name) {
        if (name == null) {
            throw new IllegalArgumentException("Null charset name");
        }
        for (int at = 0; at < NAMES.length; at++) {
            if (name.equalsIgnoreCase(NAMES[at])) {
                return at;
            }
            if (name.equalsIgnoreCase(OTHERS[at])) {
                return MEANT[at];
            }
        }
        return -1;
    }

    public static boolean isSupported(String name) {
        return find(name) >= 0;
    }

    public static Charset forName(String name) {
        int at = find(name);
        if (at < 0) {
            throw new UnsupportedCharsetException(name);
        }
        if (ALL[at] == null) {
            ALL[at] = new Known(NAMES[at]);
        }
        return ALL[at];
    }

    public static Charset defaultCharset() {
        return forName("UTF-8");
    }

    public abstract boolean contains(Charset other);

    public boolean canEncode() {
        return true;
    }

    public CharsetEncoder newEncoder() {
        return new CharsetEncoder(this);
    }

    public final String name() {
        return name;
    }

    public String displayName() {
        return name;
    }

    public String displayName(Locale locale) {
        return name;
    }

    @Override
    public final int compareTo(Charset other) {
        return name.compareToIgnoreCase(other.name);
    }

    @Override
    public final int hashCode() {
        return name.hashCode();
    }

    @Override
    public final boolean equals(Object other) {
        return other instanceof Charset && name.equals(((Charset) other).name);
    }

    @Override
    public final String toString() {
        return name;
    }
}
