package more.java.lang;

import java.lang.CharSequence;

/**
 * Members of java.lang.StringBuilder. The profile's own only grows. What a builder held once it was cut or changed inside is kept beside it: its text is
 * that, and behind it what was put at the end since.
 */
public final class StringBuilder {
    private static final int ROWS = 64;
    private static Held[] held;

    private static final class Held {
        private final java.lang.StringBuilder of;
        private final Held below;
        private java.lang.String text;
        private int from;

        Held(java.lang.StringBuilder of, Held below) {
            this.of = of;
            this.below = below;
        }
    }

    private StringBuilder() {
    }

    private static Held held(java.lang.StringBuilder of) {
        Held found = held[of.hashCode() & ROWS - 1];
        while (found != null && found.of != of) {
            found = found.below;
        }
        return found;
    }

    private static java.lang.StringBuilder hold(java.lang.StringBuilder of, java.lang.String text) {
        if (held == null) {
            held = new Held[ROWS];
        }
        Held found = held(of);
        if (found == null) {
            int row = of.hashCode() & ROWS - 1;
            found = new Held(of, held[row]);
            held[row] = found;
        }
        found.text = text;
        found.from = of.length();
        return of;
    }

    public static java.lang.String toString(java.lang.StringBuilder of) {
        Held found = held == null ? null : held(of);
        return found == null ? of.toString() : found.text.concat(of.toString().substring(found.from));
    }

    public static int length(java.lang.StringBuilder of) {
        Held found = held == null ? null : held(of);
        return found == null ? of.length() : found.text.length() + of.length() - found.from;
    }

    public static char charAt(java.lang.StringBuilder of, int at) {
        Held found = held == null ? null : held(of);
        if (found == null) {
            return of.charAt(at);
        }
        int own = at - found.text.length();
        return own < 0 ? found.text.charAt(at) : of.charAt(found.from + own);
    }

    private static java.lang.String outside(int from, int to, int length) {
        return "start " + from + ", end " + to + ", length " + length;
    }

    private static void check(int from, int to, int length) {
        if (from < 0 || from > to || to > length) {
            throw new StringIndexOutOfBoundsException(outside(from, to, length));
        }
    }

    private static java.lang.String part(CharSequence of, int from, int to) {
        CharSequence text = of == null ? "null" : of;
        if (from < 0 || from > to || to > text.length()) {
            throw new IndexOutOfBoundsException(outside(from, to, text.length()));
        }
        return text.subSequence(from, to).toString();
    }

    public static java.lang.StringBuilder delete(java.lang.StringBuilder of, int from, int until) {
        return replace(of, from, until, "");
    }

    public static java.lang.StringBuilder deleteCharAt(java.lang.StringBuilder of, int at) {
        check(at, at, length(of) - 1);
        return replace(of, at, at + 1, "");
    }

    public static java.lang.StringBuilder replace(java.lang.StringBuilder of, int from, int until, java.lang.String with) {
        java.lang.String text = toString(of);
        int to = java.lang.Math.min(until, text.length());
        check(from, to, text.length());
        if (from == text.length()) {
            return of.append(with.concat(""));
        }
        return hold(of, text.substring(0, from).concat(with).concat(text.substring(to)));
    }

    public static void setLength(java.lang.StringBuilder of, int to) {
        check(to, to, java.lang.Integer.MAX_VALUE);
        java.lang.String text = toString(of);
        if (to <= text.length()) {
            hold(of, text.substring(0, to));
        }
        for (int at = text.length(); at < to; at++) {
            of.append('\0');
        }
    }

    public static void setCharAt(java.lang.StringBuilder of, int at, char to) {
        check(at, at, length(of) - 1);
        replace(of, at, at + 1, java.lang.String.valueOf(to));
    }

    public static java.lang.StringBuilder reverse(java.lang.StringBuilder of) {
        return hold(of, new StringBuffer(toString(of)).reverse().toString());
    }

    public static java.lang.StringBuilder insert(java.lang.StringBuilder of, int at, java.lang.String text) {
        check(at, at, length(of));
        return replace(of, at, at, java.lang.String.valueOf((Object) text));
    }

    public static java.lang.StringBuilder insert(java.lang.StringBuilder of, int at, Object value) {
        return insert(of, at, java.lang.String.valueOf((Object) value));
    }

    public static java.lang.StringBuilder insert(java.lang.StringBuilder of, int at, CharSequence text) {
        return insert(of, at, java.lang.String.valueOf((Object) text));
    }

    public static java.lang.StringBuilder insert(java.lang.StringBuilder of, int at, CharSequence text, int from, int to) {
        check(at, at, length(of));
        return insert(of, at, part(text, from, to));
    }

    public static java.lang.StringBuilder insert(java.lang.StringBuilder of, int at, char[] text) {
        return insert(of, at, java.lang.String.valueOf(text));
    }

    public static java.lang.StringBuilder insert(java.lang.StringBuilder of, int at, char[] text, int from, int count) {
        check(at, at, length(of));
        return insert(of, at, java.lang.String.valueOf(text, from, count));
    }

    public static java.lang.StringBuilder insert(java.lang.StringBuilder of, int at, boolean value) {
        return insert(of, at, java.lang.String.valueOf(value));
    }

    public static java.lang.StringBuilder insert(java.lang.StringBuilder of, int at, char value) {
        return insert(of, at, java.lang.String.valueOf(value));
    }

    public static java.lang.StringBuilder insert(java.lang.StringBuilder of, int at, int value) {
        return insert(of, at, java.lang.String.valueOf(value));
    }

    public static java.lang.StringBuilder insert(java.lang.StringBuilder of, int at, long value) {
        return insert(of, at, java.lang.String.valueOf(value));
    }

    public static java.lang.StringBuilder append(java.lang.StringBuilder to, Object of) {
        return to.append(java.lang.String.valueOf((Object) of));
    }

    public static java.lang.StringBuilder make(java.lang.StringBuilder a, java.lang.StringBuilder b, CharSequence of) {
        return new java.lang.StringBuilder(of.toString());
    }

    public static java.lang.StringBuilder append(java.lang.StringBuilder to, CharSequence of) {
        return to.append(java.lang.String.valueOf((Object) of));
    }

    public static java.lang.StringBuilder append(java.lang.StringBuilder to, CharSequence of, int from, int until) {
        return to.append(part(of, from, until));
    }

    public static java.lang.StringBuilder append(java.lang.StringBuilder to, StringBuffer of) {
        return to.append(java.lang.String.valueOf((Object) of));
    }

    public static java.lang.StringBuilder append(java.lang.StringBuilder to, char[] of) {
        return append(to, of, 0, of.length);
    }

    public static java.lang.StringBuilder append(java.lang.StringBuilder to, char[] of, int from, int count) {
        if (from < 0 || count < 0 || from > of.length - count) {
            throw new IndexOutOfBoundsException(outside(from, from + count, of.length));
        }
        for (int at = from; at < from + count; at++) {
            to.append(of[at]);
        }
        return to;
    }

    public static java.lang.StringBuilder appendCodePoint(java.lang.StringBuilder to, int of) {
        return append(to, java.lang.Character.toChars(of));
    }

    public static java.lang.String substring(java.lang.StringBuilder of, int from) {
        return substring(of, from, length(of));
    }

    public static java.lang.String substring(java.lang.StringBuilder of, int from, int to) {
        java.lang.String text = toString(of);
        check(from, to, text.length());
        return text.substring(from, to);
    }

    public static CharSequence subSequence(java.lang.StringBuilder of, int from, int to) {
        return substring(of, from, to);
    }

    public static int indexOf(java.lang.StringBuilder of, java.lang.String part) {
        return toString(of).indexOf(part);
    }

    public static int indexOf(java.lang.StringBuilder of, java.lang.String part, int from) {
        return toString(of).indexOf(part, from);
    }

    public static int lastIndexOf(java.lang.StringBuilder of, java.lang.String part) {
        return toString(of).lastIndexOf(part);
    }

    public static int lastIndexOf(java.lang.StringBuilder of, java.lang.String part, int from) {
        return toString(of).lastIndexOf(part, from);
    }

    public static int codePointAt(java.lang.StringBuilder of, int at) {
        check(at, at, length(of) - 1);
        return toString(of).codePointAt(at);
    }

    public static int codePointBefore(java.lang.StringBuilder of, int at) {
        return toString(of).codePointBefore(at);
    }

    public static int codePointCount(java.lang.StringBuilder of, int from, int to) {
        return toString(of).codePointCount(from, to);
    }

    public static int offsetByCodePoints(java.lang.StringBuilder of, int at, int many) {
        return toString(of).offsetByCodePoints(at, many);
    }

    public static void getChars(java.lang.StringBuilder of, int from, int to, char[] into, int at) {
        check(from, to, length(of));
        if (at < 0 || at > into.length - (to - from)) {
            throw new IndexOutOfBoundsException(outside(at, at + to - from, into.length));
        }
        toString(of).getChars(from, to, into, at);
    }

    public static void ensureCapacity(java.lang.StringBuilder of, int capacity) {
    }

    public static void trimToSize(java.lang.StringBuilder of) {
    }

    public static int capacity(java.lang.StringBuilder of) {
        return length(of);
    }
}
