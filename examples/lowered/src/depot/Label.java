package depot;

import java.io.IOException;
import java.io.StringReader;

/** Labels of the form NAME or NAME:COUNT. */
public final class Label implements Comparable<Label> {
    /** What a label is of. */
    public enum Kind {
        SMALL, LARGE
    }

    private final String name;
    private final Integer count;

    public Label(String name, int count) {
        this.name = name;
        this.count = new Integer(count > 1 ? count : 1);
    }

    public static Label parse(String text) throws IOException {
        int at = text.indexOf(':', 1);
        if (at < 0) {
            return new Label(text, 1);
        }
        StringReader rest = new StringReader(text.substring(at + 1));
        int count = 0;
        for (int next = rest.read(); next >= 0; next = rest.read()) {
            if (!Character.isDigit((char) next)) {
                throw new IOException("no number: " + text);
            }
            count = count * 10 + Character.digit((char) next, 10);
        }
        return new Label(text.substring(0, at), count);
    }

    public Kind kind() {
        return Kind.valueOf(count < 10 ? "SMALL" : "LARGE");
    }

    public String shown() {
        return String.format("%s x%d", name, count);
    }

    @Override
    public int compareTo(Label other) {
        int order = name.compareToIgnoreCase(other.name);
        return order != 0 ? order : count.compareTo(other.count);
    }

    @Override
    public boolean equals(Object other) {
        return other instanceof Label && compareTo((Label) other) == 0;
    }

    @Override
    public int hashCode() {
        return name.toLowerCase().hashCode() * 31 + count;
    }
}
