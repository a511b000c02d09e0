package java.util;

public class StringTokenizer implements Enumeration<Object> {
    private final String of;
    private final String between;
    private final boolean givesBetween;
    private int at;

    public StringTokenizer(String of) {
        this(of, " \t\n\r\f", false);
    }

    public StringTokenizer(String of, String between) {
        this(of, between, false);
    }

    public StringTokenizer(String of, String between, boolean givesBetween) {
        this.of = of.toString();
        this.between = between;
        this.givesBetween = givesBetween;
    }

    private boolean isBetween(int place) {
        return between.indexOf(of.charAt(place)) >= 0;
    }

    private int start(int from) {
        int place = from;
        while (!givesBetween && place < of.length() && isBetween(place)) {
            place++;
        }
        return place;
    }

    private int end(int from) {
        int place = from;
        while (place < of.length() && !isBetween(place)) {
            place++;
        }
        return givesBetween && place == from && place < of.length() ? place + 1 : place;
    }

    public boolean hasMoreTokens() {
        return start(at) < of.length();
    }

    public String nextToken() {
        int from = start(at);
        if (from >= of.length()) {
            throw new NoSuchElementException();
        }
        at = end(from);
        return of.substring(from, at);
    }

    @Override
    public boolean hasMoreElements() {
        return hasMoreTokens();
    }

    @Override
    public Object nextElement() {
        return nextToken();
    }

    public int countTokens() {
        int count = 0;
        for (int from = start(at); from < of.length(); from = start(end(from))) {
            count++;
        }
        return count;
    }
}
