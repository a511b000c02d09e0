package java.lang;

import java.io.Serializable;

public final class StringBuffer implements Appendable, CharSequence, Serializable {
    private char[] value;
    private int count;

    public StringBuffer() {
        this(16);
    }

    public StringBuffer(int size) {
        value = new char[size];
    }

    public StringBuffer(String of) {
        this(of.length() + 16);
        append(of);
    }

    public StringBuffer(CharSequence of) {
        this(of.length() + 16);
        append(of);
    }

    private void makeRoom(int wanted) {
        if (wanted > value.length) {
            char[] more = new char[Math.max(value.length * 2 + 2, wanted)];
            System.arraycopy(value, 0, more, 0, count);
            value = more;
        }
    }

    private void check(int at, int most) {
        if (at < 0 || at > most) {
            throw new StringIndexOutOfBoundsException("index " + at + ",length " + count);
        }
    }

    private static String outside(int from, int to, int length) {
        return "start " + from + ", end " + to + ", length " + length;
    }

    private void checkRange(int from, int to) {
        if (from < 0 || from > to || to > count) {
            throw new StringIndexOutOfBoundsException(outside(from, to, count));
        }
    }

    private static String part(CharSequence of, int from, int to) {
        CharSequence text = of == null ? "null" : of;
        if (from < 0 || from > to || to > text.length()) {
            throw new IndexOutOfBoundsException(outside(from, to, text.length()));
        }
        return text.subSequence(from, to).toString();
    }

    public int length() {
        return count;
    }

    public int capacity() {
        return value.length;
    }

    public void ensureCapacity(int wanted) {
        makeRoom(wanted);
    }

    public void trimToSize() {
        char[] less = new char[count];
        System.arraycopy(value, 0, less, 0, count);
        value = less;
    }

    public void setLength(int to) {
        check(to, Integer.MAX_VALUE);
        makeRoom(to);
        for (int at = count; at < to; at++) {
            value[at] = 0;
        }
        count = to;
    }

    public char charAt(int at) {
        check(at, count - 1);
        return value[at];
    }

    public void setCharAt(int at, char to) {
        check(at, count - 1);
        value[at] = to;
    }

    public StringBuffer append(String of) {
        String text = String.valueOf((Object) of);
        makeRoom(count + text.length());
        text.getChars(0, text.length(), value, count);
        count += text.length();
        return this;
    }

    public StringBuffer append(Object of) {
        return append(String.valueOf(of));
    }

    public StringBuffer append(StringBuffer of) {
        return append(String.valueOf((Object) of));
    }

    public StringBuffer append(CharSequence of) {
        return append(String.valueOf((Object) of));
    }

    public StringBuffer append(CharSequence of, int from, int to) {
        return append(part(of, from, to));
    }

    public StringBuffer append(char[] of) {
        return append(of, 0, of.length);
    }

    public StringBuffer append(char[] of, int at, int many) {
        if (at < 0 || many < 0 || at > of.length - many) {
            throw new IndexOutOfBoundsException(outside(at, at + many, of.length));
        }
        makeRoom(count + many);
        System.arraycopy(of, at, value, count, many);
        count += many;
        return this;
    }

    public StringBuffer append(char of) {
        makeRoom(count + 1);
        value[count++] = of;
        return this;
    }

    public StringBuffer append(int of) {
        return append(String.valueOf(of));
    }

    public StringBuffer append(long of) {
        return append(String.valueOf(of));
    }

    public StringBuffer append(boolean of) {
        return append(String.valueOf(of));
    }

    public StringBuffer appendCodePoint(int of) {
        return append(Character.toChars(of));
    }

    public StringBuffer delete(int from, int to) {
        return replace(from, to, "");
    }

    public StringBuffer deleteCharAt(int at) {
        check(at, count - 1);
        return replace(at, at + 1, "");
    }

    public StringBuffer replace(int from, int to, String with) {
        int end = Math.min(to, count);
        checkRange(from, end);
        makeRoom(count - (end - from) + with.length());
        System.arraycopy(value, end, value, from + with.length(), count - end);
        with.getChars(0, with.length(), value, from);
        count += with.length() - (end - from);
        return this;
    }

    public StringBuffer insert(int at, String of) {
        check(at, count);
        return replace(at, at, String.valueOf((Object) of));
    }

    public StringBuffer insert(int at, Object of) {
        return insert(at, String.valueOf(of));
    }

    public StringBuffer insert(int at, CharSequence of) {
        return insert(at, String.valueOf((Object) of));
    }

    public StringBuffer insert(int at, CharSequence of, int from, int to) {
        check(at, count);
        return insert(at, part(of, from, to));
    }

    public StringBuffer insert(int at, char[] of) {
        return insert(at, String.valueOf(of));
    }

    public StringBuffer insert(int at, char[] of, int from, int many) {
        check(at, count);
        return insert(at, String.valueOf(of, from, many));
    }

    public StringBuffer insert(int at, char of) {
        return insert(at, String.valueOf(of));
    }

    public StringBuffer insert(int at, int of) {
        return insert(at, String.valueOf(of));
    }

    public StringBuffer insert(int at, long of) {
        return insert(at, String.valueOf(of));
    }

    public StringBuffer insert(int at, boolean of) {
        return insert(at, String.valueOf(of));
    }

    public StringBuffer reverse() {
        for (int at = 0, to = count - 1; at < to; at++, to--) {
            char held = value[at];
            value[at] = value[to];
            value[to] = held;
        }
        for (int at = 0; at + 1 < count; at++) {
            if (Character.isLowSurrogate(value[at]) && Character.isHighSurrogate(value[at + 1])) {
                char held = value[at];
                value[at] = value[at + 1];
                value[at + 1] = held;
                at++;
            }
        }
        return this;
    }

    public int indexOf(String part) {
        return toString().indexOf(part);
    }

    public int indexOf(String part, int from) {
        return toString().indexOf(part, from);
    }

    public int lastIndexOf(String part) {
        return toString().lastIndexOf(part);
    }

    public int lastIndexOf(String part, int from) {
        return toString().lastIndexOf(part, from);
    }

    public String substring(int from) {
        return substring(from, count);
    }

    public String substring(int from, int to) {
        checkRange(from, to);
        return new String(value, from, to - from);
    }

    public CharSequence subSequence(int from, int to) {
        return substring(from, to);
    }

    public void getChars(int from, int to, char[] into, int at) {
        checkRange(from, to);
        if (at < 0 || at > into.length - (to - from)) {
            throw new IndexOutOfBoundsException(outside(at, at + to - from, into.length));
        }
        System.arraycopy(value, from, into, at, to - from);
    }

    public int codePointAt(int at) {
        check(at, count - 1);
        return toString().codePointAt(at);
    }

    public int codePointBefore(int at) {
        return toString().codePointBefore(at);
    }

    public int codePointCount(int from, int to) {
        return toString().codePointCount(from, to);
    }

    public int offsetByCodePoints(int at, int many) {
        return toString().offsetByCodePoints(at, many);
    }

    @Override
    public String toString() {
        return new String(value, 0, count);
    }
}
