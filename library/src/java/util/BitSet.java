package java.util;

import java.io.Serializable;

public class BitSet implements Cloneable, Serializable {
    private long[] words;
    /** How many words there are up to the last that isn't 0. */
    private int used;
    private boolean isSized;

    public BitSet() {
        words = new long[1];
    }

    public BitSet(int size) {
        if (size < 0) {
            throw new NegativeArraySizeException("nbits < 0: " + size);
        }
        words = new long[size == 0 ? 0 : wordOf(size - 1) + 1];
        isSized = true;
    }

    private BitSet(long[] words) {
        this.words = words;
        used = words.length;
        cut();
    }

    public static BitSet valueOf(long[] of) {
        int count = of.length;
        while (count > 0 && of[count - 1] == 0) {
            count--;
        }
        return new BitSet(Arrays.copyOf(of, count));
    }

    public static BitSet valueOf(byte[] of) {
        int count = of.length;
        while (count > 0 && of[count - 1] == 0) {
            count--;
        }
        long[] words = new long[(count + 7) / 8];
        for (int at = 0; at < count; at++) {
            words[at / 8] |= (of[at] & 0xffL) << 8 * (at % 8);
        }
        return new BitSet(words);
    }

    private static int wordOf(int at) {
        return at >> 6;
    }

    private static void check(int at, String what) {
        if (at < 0) {
            throw new IndexOutOfBoundsException(what + " < 0: " + at);
        }
    }

    private static void check(int from, int to) {
        check(from, "fromIndex");
        check(to, "toIndex");
        if (from > to) {
            throw new IndexOutOfBoundsException("fromIndex: " + from + " > toIndex: " + to);
        }
    }

    private void makeRoom(int count) {
        if (count > words.length) {
            words = Arrays.copyOf(words, Math.max(count, words.length * 2));
            isSized = false;
        }
        used = Math.max(used, count);
    }

    private void cut() {
        while (used > 0 && words[used - 1] == 0) {
            used--;
        }
    }

    /** The bits of a word that are in a range which begins before the word's end and ends behind its beginning. */
    private static long mask(int word, int from, int to) {
        long mask = -1L;
        if (from > word << 6) {
            mask <<= from;
        }
        return wordOf(to - 1) == word ? mask & -1L >>> -to : mask;
    }

    public void set(int at) {
        check(at, "bitIndex");
        makeRoom(wordOf(at) + 1);
        words[wordOf(at)] |= 1L << at;
    }

    public void set(int at, boolean to) {
        if (to) {
            set(at);
        } else {
            clear(at);
        }
    }

    public void set(int from, int to) {
        check(from, to);
        if (from == to) {
            return;
        }
        makeRoom(wordOf(to - 1) + 1);
        for (int word = wordOf(from); word <= wordOf(to - 1); word++) {
            words[word] |= mask(word, from, to);
        }
    }

    public void set(int from, int until, boolean to) {
        if (to) {
            set(from, until);
        } else {
            clear(from, until);
        }
    }

    public void clear(int at) {
        check(at, "bitIndex");
        if (wordOf(at) < used) {
            words[wordOf(at)] &= ~(1L << at);
            cut();
        }
    }

    public void clear(int from, int to) {
        check(from, to);
        int end = Math.min(to, length());
        if (from >= end) {
            return;
        }
        for (int word = wordOf(from); word <= wordOf(end - 1); word++) {
            words[word] &= ~mask(word, from, end);
        }
        cut();
    }

    public void clear() {
        for (int at = 0; at < used; at++) {
            words[at] = 0;
        }
        used = 0;
    }

    public void flip(int at) {
        check(at, "bitIndex");
        makeRoom(wordOf(at) + 1);
        words[wordOf(at)] ^= 1L << at;
        cut();
    }

    public void flip(int from, int to) {
        check(from, to);
        if (from == to) {
            return;
        }
        makeRoom(wordOf(to - 1) + 1);
        for (int word = wordOf(from); word <= wordOf(to - 1); word++) {
            words[word] ^= mask(word, from, to);
        }
        cut();
    }

    public boolean get(int at) {
        check(at, "bitIndex");
        return wordOf(at) < used && (words[wordOf(at)] & 1L << at) != 0;
    }

    public BitSet get(int from, int until) {
        check(from, until);
        int to = Math.min(until, length());
        if (to <= from) {
            return new BitSet(0);
        }
        BitSet made = new BitSet(to - from);
        for (int at = nextSetBit(from); at >= 0 && at < to; at = nextSetBit(at + 1)) {
            made.set(at - from);
        }
        return made;
    }

    public int nextSetBit(int from) {
        check(from, "fromIndex");
        for (int word = wordOf(from); word < used; word++) {
            long left = words[word] & (word == wordOf(from) ? -1L << from : -1L);
            if (left != 0) {
                return word * 64 + Long.numberOfTrailingZeros(left);
            }
        }
        return -1;
    }

    public int nextClearBit(int from) {
        check(from, "fromIndex");
        for (int word = wordOf(from); word < used; word++) {
            long left = ~words[word] & (word == wordOf(from) ? -1L << from : -1L);
            if (left != 0) {
                return word * 64 + Long.numberOfTrailingZeros(left);
            }
        }
        return Math.max(from, used * 64);
    }

    public int previousSetBit(int from) {
        check(from + 1, "fromIndex < -1 or");
        int at = Math.min(from, length() - 1);
        while (at >= 0 && !get(at)) {
            at--;
        }
        return at;
    }

    public int previousClearBit(int from) {
        check(from + 1, "fromIndex < -1 or");
        int at = from;
        while (at >= 0 && get(at)) {
            at--;
        }
        return at;
    }

    public int length() {
        return used == 0 ? 0 : 64 * used - Long.numberOfLeadingZeros(words[used - 1]);
    }

    public int size() {
        return words.length * 64;
    }

    public boolean isEmpty() {
        return used == 0;
    }

    public int cardinality() {
        int count = 0;
        for (int at = 0; at < used; at++) {
            count += Long.bitCount(words[at]);
        }
        return count;
    }

    public void and(BitSet other) {
        for (int at = 0; at < used; at++) {
            words[at] &= at < other.used ? other.words[at] : 0;
        }
        cut();
    }

    public void or(BitSet other) {
        makeRoom(other.used);
        for (int at = 0; at < other.used; at++) {
            words[at] |= other.words[at];
        }
    }

    public void xor(BitSet other) {
        makeRoom(other.used);
        for (int at = 0; at < other.used; at++) {
            words[at] ^= other.words[at];
        }
        cut();
    }

    public void andNot(BitSet other) {
        for (int at = 0; at < used && at < other.used; at++) {
            words[at] &= ~other.words[at];
        }
        cut();
    }

    public boolean intersects(BitSet other) {
        for (int at = 0; at < used && at < other.used; at++) {
            if ((words[at] & other.words[at]) != 0) {
                return true;
            }
        }
        return false;
    }

    public long[] toLongArray() {
        return Arrays.copyOf(words, used);
    }

    public byte[] toByteArray() {
        byte[] made = new byte[(length() + 7) / 8];
        for (int at = 0; at < made.length; at++) {
            made[at] = (byte) (words[at / 8] >>> 8 * (at % 8));
        }
        return made;
    }

    /** As Java's, it cuts what isn't used off this one, unless its size was stated. */
    @Override
    public Object clone() {
        if (!isSized && used < words.length) {
            words = Arrays.copyOf(words, used);
        }
        BitSet made = new BitSet(Arrays.copyOf(words, words.length));
        made.isSized = isSized;
        return made;
    }

    @Override
    public boolean equals(Object other) {
        if (!(other instanceof BitSet) || used != ((BitSet) other).used) {
            return false;
        }
        for (int at = 0; at < used; at++) {
            if (words[at] != ((BitSet) other).words[at]) {
                return false;
            }
        }
        return true;
    }

    @Override
    public int hashCode() {
        long code = 1234;
        for (int at = used - 1; at >= 0; at--) {
            code ^= words[at] * (at + 1);
        }
        return (int) (code >> 32 ^ code);
    }

    @Override
    public String toString() {
        StringBuilder made = new StringBuilder("{");
        for (int at = nextSetBit(0); at >= 0; at = nextSetBit(at + 1)) {
            made.append(made.length() > 1 ? ", " : "").append(at);
        }
        return made.append("}").toString();
    }
}
