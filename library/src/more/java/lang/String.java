package more.java.lang;

import java.io.UnsupportedEncodingException;
import java.lang.CharSequence;
import java.lang.Character;
import java.lang.Iterable;
import java.lang.Math;
import java.lang.StringBuilder;
import java.nio.charset.Charset;
import java.nio.charset.StandardCharsets;
import java.util.ArrayList;
import java.util.Comparator;
import java.util.Iterator;
import java.util.List;
import java.util.Locale;
import java.util.regex.Pattern;

/** Members of java.lang.String. Letters have cases as ASCII and Latin 1 have them. */
public final class String {
    public static final Comparator<java.lang.String> CASE_INSENSITIVE_ORDER = new CaseInsensitive();

    private String() {
    }

    private static final class CaseInsensitive implements Comparator<java.lang.String> {
        @Override
        public int compare(java.lang.String one, java.lang.String other) {
            return compareToIgnoreCase(one, other);
        }
    }

    // Constructors.

    public static java.lang.String make(java.lang.String a, java.lang.String b) {
        return "";
    }

    public static java.lang.String make(java.lang.String a, java.lang.String b, java.lang.String of) {
        return of.length() == 0 ? of : of.substring(0, 1).concat(of.substring(1));
    }

    public static java.lang.String make(java.lang.String a, java.lang.String b, char[] of) {
        return text(of, 0, of.length);
    }

    public static java.lang.String make(java.lang.String a, java.lang.String b, char[] of, int from, int count) {
        checkBounds(from, count, of.length);
        return text(of, from, count);
    }

    public static java.lang.String make(java.lang.String a, java.lang.String b, int[] of, int from, int count) {
        checkBounds(from, count, of.length);
        StringBuilder made = new StringBuilder();
        for (int at = from; at < from + count; at++) {
            made.append(Character.toChars(of[at]));
        }
        return made.toString();
    }

    public static java.lang.String make(java.lang.String a, java.lang.String b, StringBuilder of) {
        return of.toString();
    }

    public static java.lang.String make(java.lang.String a, java.lang.String b, StringBuffer of) {
        return of.toString();
    }

    public static java.lang.String make(java.lang.String a, java.lang.String b, byte[] of) {
        return Texts.decoded(of, 0, of.length, StandardCharsets.UTF_8);
    }

    public static java.lang.String make(java.lang.String a, java.lang.String b, byte[] of, int from, int count) {
        checkBounds(from, count, of.length);
        return Texts.decoded(of, from, count, StandardCharsets.UTF_8);
    }

    public static java.lang.String make(java.lang.String a, java.lang.String b, byte[] of, Charset by) {
        return Texts.decoded(of, 0, of.length, by);
    }

    public static java.lang.String make(java.lang.String a, java.lang.String b, byte[] of, int from, int count,
            Charset by) {
        checkBounds(from, count, of.length);
        return Texts.decoded(of, from, count, by);
    }

    public static java.lang.String make(java.lang.String a, java.lang.String b, byte[] of, java.lang.String by)
            throws UnsupportedEncodingException {
        return Texts.decoded(of, 0, of.length, Texts.charset(by));
    }

    public static java.lang.String make(java.lang.String a, java.lang.String b, byte[] of, int from, int count,
            java.lang.String by) throws UnsupportedEncodingException {
        checkBounds(from, count, of.length);
        return Texts.decoded(of, from, count, Texts.charset(by));
    }

    private static void checkBounds(int from, int count, int length) {
        if (from < 0 || count < 0 || from > length - count) {
            throw new StringIndexOutOfBoundsException("offset " + from + ", count " + count + ", length " + length);
        }
    }

    private static java.lang.String text(char[] of, int from, int count) {
        StringBuilder made = new StringBuilder(count);
        for (int at = from; at < from + count; at++) {
            made.append(of[at]);
        }
        return made.toString();
    }

    // Static methods.

    public static java.lang.String valueOf(Object of) {
        return of instanceof StringBuilder ? more.java.lang.StringBuilder.toString((StringBuilder) of)
            : java.lang.String.valueOf(of);
    }

    public static java.lang.String valueOf(char[] of) {
        return text(of, 0, of.length);
    }

    public static java.lang.String valueOf(char[] of, int from, int count) {
        checkBounds(from, count, of.length);
        return text(of, from, count);
    }

    public static java.lang.String copyValueOf(char[] of) {
        return text(of, 0, of.length);
    }

    public static java.lang.String join(CharSequence between, CharSequence[] parts) {
        java.lang.String sign = between.toString();
        StringBuilder made = new StringBuilder();
        for (int at = 0; at < parts.length; at++) {
            if (at > 0) {
                made.append(sign);
            }
            made.append(valueOf((Object) parts[at]));
        }
        return made.toString();
    }

    public static java.lang.String join(CharSequence between, Iterable<? extends CharSequence> parts) {
        java.lang.String sign = between.toString();
        StringBuilder made = new StringBuilder();
        Iterator<? extends CharSequence> walk = parts.iterator();
        while (walk.hasNext()) {
            CharSequence next = walk.next();
            made.append(valueOf((Object) next));
            if (walk.hasNext()) {
                made.append(sign);
            }
        }
        return made.toString();
    }

    public static java.lang.String format(java.lang.String form, Object[] values) {
        return Texts.format(form, values);
    }

    public static java.lang.String format(Locale locale, java.lang.String form, Object[] values) {
        return Texts.format(form, values);
    }

    // Methods of a text.

    public static byte[] getBytes(java.lang.String of) {
        return Texts.encoded(of, StandardCharsets.UTF_8);
    }

    public static byte[] getBytes(java.lang.String of, Charset by) {
        return Texts.encoded(of, by);
    }

    public static byte[] getBytes(java.lang.String of, java.lang.String by) throws UnsupportedEncodingException {
        return Texts.encoded(of, Texts.charset(by));
    }

    public static void getChars(java.lang.String of, int from, int to, char[] into, int at) {
        if (from < 0 || to > of.length() || from > to) {
            throw new StringIndexOutOfBoundsException("begin " + from + ", end " + to + ", length " + of.length());
        }
        checkBounds(at, to - from, into.length);
        for (int next = from; next < to; next++) {
            into[at + next - from] = of.charAt(next);
        }
    }

    public static boolean contains(java.lang.String of, CharSequence part) {
        return of.indexOf(part.toString()) >= 0;
    }

    public static boolean contentEquals(java.lang.String of, CharSequence other) {
        return of.equals(other.toString());
    }

    public static boolean contentEquals(java.lang.String of, StringBuffer other) {
        return of.equals(other.toString());
    }

    public static CharSequence subSequence(java.lang.String of, int from, int to) {
        return of.substring(from, to);
    }

    public static java.lang.String intern(java.lang.String of) {
        return of;
    }

    public static java.lang.String trim(java.lang.String of) {
        int from = 0;
        int to = of.length();
        while (from < to && of.charAt(from) <= ' ') {
            from++;
        }
        while (from < to && of.charAt(to - 1) <= ' ') {
            to--;
        }
        return from == 0 && to == of.length() ? of : of.substring(from, to);
    }

    public static int indexOf(java.lang.String of, int character, int from) {
        if (character >= 0x10000) {
            return character > 0x10FFFF ? -1 : indexOf(of, java.lang.String.valueOf(Character.toChars(character)), from);
        }
        for (int at = Math.max(from, 0); at < of.length(); at++) {
            if (of.charAt(at) == character) {
                return at;
            }
        }
        return -1;
    }

    public static int indexOf(java.lang.String of, java.lang.String part, int from) {
        int last = of.length() - part.length();
        if (from > last) {
            return part.isEmpty() ? of.length() : -1;
        }
        for (int at = Math.max(from, 0); at <= last; at++) {
            if (startsWith(of, part, at)) {
                return at;
            }
        }
        return -1;
    }

    public static int lastIndexOf(java.lang.String of, int character) {
        return lastIndexOf(of, character, of.length() - 1);
    }

    public static int lastIndexOf(java.lang.String of, int character, int from) {
        if (character >= 0x10000) {
            return character > 0x10FFFF ? -1
                : lastIndexOf(of, java.lang.String.valueOf(Character.toChars(character)), from);
        }
        for (int at = Math.min(from, of.length() - 1); at >= 0; at--) {
            if (of.charAt(at) == character) {
                return at;
            }
        }
        return -1;
    }

    public static int lastIndexOf(java.lang.String of, java.lang.String part) {
        return lastIndexOf(of, part, of.length());
    }

    public static int lastIndexOf(java.lang.String of, java.lang.String part, int from) {
        for (int at = Math.min(from, of.length() - part.length()); at >= 0; at--) {
            if (startsWith(of, part, at)) {
                return at;
            }
        }
        return -1;
    }

    public static boolean startsWith(java.lang.String of, java.lang.String part, int from) {
        if (from < 0 || from > of.length() - part.length()) {
            return false;
        }
        for (int at = 0; at < part.length(); at++) {
            if (of.charAt(from + at) != part.charAt(at)) {
                return false;
            }
        }
        return true;
    }

    public static boolean regionMatches(java.lang.String of, int from, java.lang.String other, int at, int count) {
        return regionMatches(of, false, from, other, at, count);
    }

    public static boolean regionMatches(java.lang.String of, boolean ignoresCase, int from, java.lang.String other,
            int at, int count) {
        if (at < 0 || from < 0 || from > (long) of.length() - count || at > (long) other.length() - count) {
            return false;
        }
        for (int next = 0; next < count; next++) {
            char one = of.charAt(from + next);
            char two = other.charAt(at + next);
            if (one != two && !(ignoresCase && Texts.isSameLetter(one, two))) {
                return false;
            }
        }
        return true;
    }

    public static boolean equalsIgnoreCase(java.lang.String of, java.lang.String other) {
        return other != null && of.length() == other.length() && regionMatches(of, true, 0, other, 0, of.length());
    }

    public static int compareToIgnoreCase(java.lang.String of, java.lang.String other) {
        int shorter = Math.min(of.length(), other.length());
        for (int at = 0; at < shorter; at++) {
            char one = Texts.lower(Texts.upper(of.charAt(at)));
            char two = Texts.lower(Texts.upper(other.charAt(at)));
            if (one != two) {
                return one - two;
            }
        }
        return of.length() - other.length();
    }

    public static java.lang.String toLowerCase(java.lang.String of) {
        StringBuilder made = new StringBuilder(of.length());
        for (int at = 0; at < of.length(); at++) {
            made.append(Texts.lower(of.charAt(at)));
        }
        java.lang.String text = made.toString();
        return text.equals(of) ? of : text;
    }

    public static java.lang.String toLowerCase(java.lang.String of, Locale locale) {
        return toLowerCase(of);
    }

    public static java.lang.String toUpperCase(java.lang.String of) {
        StringBuilder made = new StringBuilder(of.length());
        for (int at = 0; at < of.length(); at++) {
            char next = of.charAt(at);
            if (next == '\u00df') {
                made.append("SS");
            } else {
                made.append(Texts.upper(next));
            }
        }
        java.lang.String text = made.toString();
        return text.equals(of) ? of : text;
    }

    public static java.lang.String toUpperCase(java.lang.String of, Locale locale) {
        return toUpperCase(of);
    }

    public static java.lang.String replace(java.lang.String of, char old, char with) {
        StringBuilder made = new StringBuilder(of.length());
        for (int at = 0; at < of.length(); at++) {
            made.append(of.charAt(at) == old ? with : of.charAt(at));
        }
        java.lang.String text = made.toString();
        return text.equals(of) ? of : text;
    }

    public static java.lang.String replace(java.lang.String of, CharSequence old, CharSequence with) {
        java.lang.String part = old.toString();
        java.lang.String put = with.toString();
        StringBuilder made = new StringBuilder();
        int from = 0;
        int at = of.indexOf(part);
        while (at >= 0) {
            made.append(of.substring(from, at)).append(put);
            from = at + part.length();
            if (part.isEmpty()) {
                if (at == of.length()) {
                    return made.toString();
                }
                made.append(of.charAt(at));
                from = at + 1;
            }
            at = indexOf(of, part, from);
        }
        return from == 0 ? of : made.append(of.substring(from)).toString();
    }

    // By a regular expression.

    public static boolean matches(java.lang.String of, java.lang.String by) {
        return Pattern.matches(by, of);
    }

    public static java.lang.String replaceAll(java.lang.String of, java.lang.String by, java.lang.String with) {
        return Pattern.compile(by).matcher(of).replaceAll(with);
    }

    public static java.lang.String replaceFirst(java.lang.String of, java.lang.String by, java.lang.String with) {
        return Pattern.compile(by).matcher(of).replaceFirst(with);
    }

    public static java.lang.String[] split(java.lang.String of, java.lang.String by) {
        return split(of, by, 0);
    }

    public static java.lang.String[] split(java.lang.String of, java.lang.String by, int limit) {
        java.lang.String part = Texts.plain(by);
        if (part == null || part.isEmpty()) {
            return Pattern.compile(by).split(of, limit);
        }
        List<java.lang.String> found = new ArrayList<>();
        int from = 0;
        int at = of.indexOf(part);
        while (at >= 0 && (limit <= 0 || found.size() < limit - 1)) {
            found.add(of.substring(from, at));
            from = at + part.length();
            at = indexOf(of, part, from);
        }
        if (from == 0) {
            return new java.lang.String[] {of};
        }
        found.add(of.substring(from));
        int size = found.size();
        while (limit == 0 && size > 0 && found.get(size - 1).isEmpty()) {
            size--;
        }
        java.lang.String[] parts = new java.lang.String[size];
        for (int next = 0; next < size; next++) {
            parts[next] = found.get(next);
        }
        return parts;
    }

    public static java.lang.String copyValueOf(char[] of, int from, int count) {
        return valueOf(of, from, count);
    }

    public static int codePointBefore(java.lang.String of, int at) {
        if (at < 1 || at > of.length()) {
            throw new StringIndexOutOfBoundsException("index " + at + ", length " + of.length());
        }
        return at > 1 && Character.isLowSurrogate(of.charAt(at - 1)) && Character.isHighSurrogate(of.charAt(at - 2))
            ? codePointAt(of, at - 2) : of.charAt(at - 1);
    }

    public static int offsetByCodePoints(java.lang.String of, int from, int many) {
        if (from < 0 || from > of.length()) {
            throw new IndexOutOfBoundsException();
        }
        int at = from;
        for (int left = many; left > 0; left--) {
            if (at == of.length()) {
                throw new IndexOutOfBoundsException();
            }
            at += Character.charCount(codePointAt(of, at));
        }
        for (int left = many; left < 0; left++) {
            if (at == 0) {
                throw new IndexOutOfBoundsException();
            }
            at -= Character.charCount(codePointBefore(of, at));
        }
        return at;
    }

    public static int codePointAt(java.lang.String of, int at) {
        char high = of.charAt(at);
        if (Character.isHighSurrogate(high) && at + 1 < of.length()
                && Character.isLowSurrogate(of.charAt(at + 1))) {
            return Character.toCodePoint(high, of.charAt(at + 1));
        }
        return high;
    }

    public static int codePointCount(java.lang.String of, int from, int to) {
        if (from < 0 || to > of.length() || from > to) {
            throw new IndexOutOfBoundsException();
        }
        int count = 0;
        for (int at = from; at < to; at++) {
            at += Character.isHighSurrogate(of.charAt(at)) && at + 1 < to && Character.isLowSurrogate(of.charAt(at + 1)) ? 1 : 0;
            count++;
        }
        return count;
    }
}
