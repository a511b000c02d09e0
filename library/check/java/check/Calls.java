package check;

import java.io.ByteArrayInputStream;
import java.io.ByteArrayOutputStream;
import java.io.InputStream;
import java.io.Reader;
import java.io.StringReader;
import java.io.StringWriter;
import java.math.BigDecimal;
import java.math.BigInteger;
import java.math.MathContext;
import java.math.RoundingMode;
import java.nio.charset.Charset;
import java.nio.charset.StandardCharsets;
import java.util.ArrayDeque;
import java.util.ArrayList;
import java.util.Arrays;
import java.util.BitSet;
import java.util.Collection;
import java.util.Collections;
import java.util.Comparator;
import java.util.Deque;
import java.util.EnumMap;
import java.util.EnumSet;
import java.util.Enumeration;
import java.util.HashMap;
import java.util.HashSet;
import java.util.Iterator;
import java.util.LinkedHashMap;
import java.util.LinkedHashSet;
import java.util.LinkedList;
import java.util.List;
import java.util.ListIterator;
import java.util.Locale;
import java.util.Map;
import java.util.Optional;
import java.util.PriorityQueue;
import java.util.Set;
import java.util.SortedMap;
import java.util.SortedSet;
import java.util.StringJoiner;
import java.util.TreeMap;
import java.util.TreeSet;
import java.util.concurrent.TimeUnit;
import java.util.regex.MatchResult;
import java.util.regex.Matcher;
import java.util.regex.Pattern;
import java.util.regex.PatternSyntaxException;

/** Draws calls and their arguments by a seed, and sums up what they give. What it draws is the same everywhere. */
public final class Calls {
    /** What numbers, characters and objects are drawn: few small ones; all of them; those of letters; one kind, in an order; constants of an enum. */
    public static final int FEW = 0, WIDE = 1, LETTERS = 2, ORDERED = 3, CONSTANTS = 4;
    /** Whether each step is printed. */
    public static boolean shows;
    /** Whether what can be stated of calls is kept. */
    public static boolean keeps;
    private static final String[] TEXTS = {"", "a", "b", "ab", "ba", "abc", "Ab", "a b", " b ", "aab", "x1", "1", "-12", "7f", "\u00e9a", "c,a,b"};
    private static final int[] EDGES = {0, -1, 1, 7, -8, 31, 32, 33, 255, 256, 65535, 65536, Integer.MAX_VALUE, Integer.MIN_VALUE, 123456789};
    private static final int MOST = 24;
    private final int mode;
    /** What is stated of each call's sum, or null. */
    private final String stated;
    private final StringBuilder told = new StringBuilder();
    private int count;
    private int state;
    private int sum;
    private Iterator<Object> kept;
    private ListIterator<Object> keptBoth;

    public Calls(int seed, int mode, String stated) {
        this.mode = mode;
        this.stated = stated;
        state = seed * 0x9e3779b9 + 0x7f4a7c15;
        state = state == 0 ? 1 : state;
    }

    public int sum() {
        return sum;
    }

    /** How many calls there were, at most up to the first whose sum was not as stated. */
    public int count() {
        return count;
    }

    /** What can be stated of the calls' sums. */
    public String told() {
        return told.toString();
    }

    /** Ends a call; tells whether its sum is not as stated. */
    public boolean ended(int at) {
        count = at;
        if (at == 0 || !keeps && stated == null) {
            return false;
        }
        char sign = (char) (0x100 + ((sum ^ sum >>> 14 ^ sum >>> 28) & 0x3fff));
        if (stated == null) {
            told.append(sign);
            return false;
        }
        return sign != stated.charAt(at - 1);
    }

    /** A number from 0 up to, and without, `count`. */
    public int below(int count) {
        state ^= state << 13;
        state ^= state >>> 17;
        state ^= state << 5;
        return (state & 0x7fffffff) % count;
    }

    // What is called, and what calls give.

    public void begin(String call) {
        if (shows) {
            System.out.println(call);
        }
    }

    public void add(int of) {
        sum = sum * 31 + of;
        if (shows) {
            System.out.println("    " + of);
        }
    }

    public void add(long of) {
        add((int) (of ^ of >>> 32));
    }

    public void add(boolean of) {
        add(of ? 1231 : 1237);
    }

    public void add(Object of) {
        int code = codeOf(of, 0);
        sum = sum * 31 + code;
        if (shows) {
            System.out.println("    " + code + " of " + shown(of));
        }
    }

    /** What a call threw counts by its class. */
    public void addThrown(Throwable of) {
        String name = of.getClass().getName();
        name = of instanceof AssertionError ? "AssertionError" : name.startsWith("more.") ? name.substring(5) : name;
        sum = sum * 31 + name.hashCode();
        if (shows) {
            System.out.println("    throws " + of);
        }
    }

    private static String shown(Object of) {
        return of == null ? "null" : of instanceof Object[] ? Arrays.asList((Object[]) of).toString() : of.getClass().getName() + " " + of;
    }

    private int codeOf(Object of, int depth) {
        if (of == null) {
            return 3;
        }
        if (of instanceof String || of instanceof Integer || of instanceof Long || of instanceof Boolean || of instanceof Character
                || of instanceof Short || of instanceof Byte) {
            return of.hashCode() + 5;
        }
        if (depth > 3) {
            return 7;
        }
        if (of instanceof Map.Entry) {
            Map.Entry<?, ?> entry = (Map.Entry<?, ?>) of;
            return codeOf(entry.getKey(), depth + 1) * 17 + codeOf(entry.getValue(), depth + 1);
        }
        if (of instanceof Map) {
            return codeOf(((Map<?, ?>) of).entrySet(), depth) + 11;
        }
        if (of instanceof Collection) {
            return walked(((Collection<?>) of).iterator(), depth) + (of instanceof List ? 13 : of instanceof Set ? 19 : 23);
        }
        if (of instanceof Iterator) {
            return walked((Iterator<?>) of, depth);
        }
        if (of instanceof Enumeration) {
            return walked((Enumeration<?>) of, depth);
        }
        if (of.getClass().isArray()) {
            return codeOfArray(of, depth);
        }
        if (of instanceof Enum && !(of instanceof Comparator)) {
            return ((Enum<?>) of).ordinal() + 53;
        }
        if (of instanceof CharSequence || of instanceof BigInteger || of instanceof BigDecimal || of instanceof StringJoiner || of instanceof Locale || of instanceof Charset || of instanceof StringWriter) {
            return String.valueOf(of).hashCode();
        }
        if (of instanceof Optional) {
            return ((Optional<?>) of).isPresent() ? codeOf(((Optional<?>) of).get(), depth + 1) * 29 : 29;
        }
        if (of instanceof Class) {
            return ((Class<?>) of).getName().hashCode();
        }
        if (of instanceof Throwable) {
            return ((Throwable) of).getClass().getName().hashCode() + codeOf(((Throwable) of).getMessage(), depth + 1);
        }
        if (of instanceof MatchResult) {
            return codeOf((MatchResult) of);
        }
        if (of instanceof ByteArrayOutputStream) {
            return codeOfArray(((ByteArrayOutputStream) of).toByteArray(), depth);
        }
        return of instanceof Comparator ? ((Comparator<Object>) of).compare("a", "b") : 37;
    }

    private int codeOf(MatchResult of) {
        try {
            int code = 43;
            for (int group = 0; group <= of.groupCount(); group++) {
                code = code * 31 + of.start(group) * 7 + of.end(group);
            }
            return code;
        } catch (IllegalStateException none) {
            return 47;
        }
    }

    private int walked(Iterator<?> of, int depth) {
        int code = 1;
        for (int at = 0; at < 2 * MOST && of.hasNext(); at++) {
            code = code * 31 + codeOf(of.next(), depth + 1);
        }
        return code;
    }

    private int walked(Enumeration<?> of, int depth) {
        int code = 1;
        for (int at = 0; at < 2 * MOST && of.hasMoreElements(); at++) {
            code = code * 31 + codeOf(of.nextElement(), depth + 1);
        }
        return code;
    }

    private int codeOfArray(Object of, int depth) {
        int code = 41;
        if (of instanceof Object[]) {
            for (Object next : (Object[]) of) {
                code = code * 31 + codeOf(next, depth + 1);
            }
        } else if (of instanceof int[]) {
            for (int next : (int[]) of) {
                code = code * 31 + next;
            }
        } else if (of instanceof char[]) {
            for (char next : (char[]) of) {
                code = code * 31 + next;
            }
        } else if (of instanceof byte[]) {
            for (byte next : (byte[]) of) {
                code = code * 31 + next;
            }
        } else if (of instanceof long[]) {
            for (long next : (long[]) of) {
                code = code * 31 + (int) (next ^ next >>> 32);
            }
        } else if (of instanceof short[]) {
            for (short next : (short[]) of) {
                code = code * 31 + next;
            }
        } else if (of instanceof boolean[]) {
            for (boolean next : (boolean[]) of) {
                code = code * 31 + (next ? 1 : 0);
            }
        }
        return code;
    }

    /** Keeps an iterator, or goes on with the one that is kept: a few of its calls, each with what it gives. */
    public void walk(Iterator of) {
        walk(of, null);
    }

    public void walk(ListIterator of) {
        walk(of, of);
    }

    private void walk(Iterator of, ListIterator both) {
        if (kept == null || below(3) > 0) {
            kept = of;
            keptBoth = both;
        }
        for (int count = below(8); count > 0; count--) {
            try {
                step(kept, keptBoth);
            } catch (RuntimeException thrown) {
                addThrown(thrown);
            }
        }
    }

    private void step(Iterator<Object> of, ListIterator<Object> both) {
        switch (below(both == null ? 5 : 9)) {
            case 0:
                add(of.hasNext());
                break;
            case 1:
                begin("  iterator.remove");
                of.remove();
                break;
            case 5:
                add(both.hasPrevious());
                break;
            case 6:
                begin("  iterator.previous");
                add(both.previous());
                break;
            case 7:
                begin("  iterator.set");
                both.set(anObject());
                break;
            case 8:
                begin("  iterator.add");
                add(both.nextIndex() * 31 + both.previousIndex());
                both.add(anObject());
                break;
            default:
                begin("  iterator.next");
                add(of.next());
        }
    }

    /** Whether something has more parts than it is to have: what is called on is made anew then. */
    public boolean isLarge(Object of) {
        return of instanceof Collection ? ((Collection<?>) of).size() > MOST : of instanceof Map ? ((Map<?, ?>) of).size() > MOST
            : of instanceof CharSequence && String.valueOf(of).length() > 2 * MOST
            || of instanceof ByteArrayOutputStream && ((ByteArrayOutputStream) of).size() > 2 * MOST
            || of instanceof StringWriter && ((StringWriter) of).getBuffer().length() > 2 * MOST;
    }

    /** Refuses a sum that isn't the one of a JDK. */
    public static void expect(int sum, int found) {
        if (sum != found) {
            throw new AssertionError("sums differ");
        }
    }

    // What is called with.

    public Object next(Object of) {
        return of instanceof Integer ? (Object) (((Integer) of).intValue() % 7 + 1) : of instanceof String ? of + "." : of;
    }

    public boolean isOdd(Object of) {
        return of instanceof Integer ? ((Integer) of).intValue() % 2 != 0 : of != null;
    }

    public Number aNumber() {
        int kind = below(4);
        return kind == 0 ? (Number) aLong() : kind == 1 ? (Number) aShort() : kind == 2 ? (Number) aByte() : (Number) anInt();
    }

    /** An enum to call Enum's members on. */
    public enum Constant { ONE, TWO { }, THREE }

    /** One with constants that no set of others takes. */
    public enum Other { ELSE }

    public Enum aConstant() {
        return below(16) == 0 ? Other.ELSE : Constant.values()[below(3)];
    }

    public Enum[] constants() {
        Enum[] made = new Enum[below(4)];
        for (int at = 0; at < made.length; at++) {
            made[at] = aConstant();
        }
        return made;
    }

    public EnumSet aConstantSet() {
        EnumSet made = EnumSet.noneOf((Class) (below(16) == 0 ? Other.class : Constant.class));
        return filled(made);
    }

    public EnumMap aConstantMap() {
        EnumMap made = new EnumMap((Class) (below(16) == 0 ? Other.class : Constant.class));
        return filled(made);
    }

    public int anInt() {
        int kind = below(16);
        if (mode == WIDE && kind < 8) {
            return kind < 4 ? EDGES[below(EDGES.length)] : state;
        }
        if (mode == LETTERS) {
            return kind < 12 ? below(256) : kind < 14 ? 0x391 + below(25) : 0x410 + below(64);
        }
        return kind == 0 ? -1 - below(3) : below(kind < 12 ? 6 : 20);
    }

    public long aLong() {
        return mode == WIDE && below(2) == 0 ? (long) anInt() << 32 ^ state : anInt();
    }

    public boolean aBoolean() {
        return below(2) == 0;
    }

    public char aChar() {
        return mode == LETTERS || mode == WIDE ? (char) (below(4) == 0 ? anInt() : below(256)) : "abAB1 ,x".charAt(below(8));
    }

    public byte aByte() {
        return (byte) anInt();
    }

    public short aShort() {
        return (short) anInt();
    }

    public String aText() {
        int kind = below(20);
        if (kind < 16) {
            return TEXTS[kind];
        }
        StringBuilder made = new StringBuilder();
        for (int count = below(6); count > 0; count--) {
            made.append(aChar());
        }
        return mode == WIDE && kind == 16 ? Long.toString(aLong()) : made.toString();
    }

    /** A regular expression. */
    public String aForm() {
        StringBuilder made = new StringBuilder();
        int parts = 1 + below(4);
        for (int part = 0; part < parts; part++) {
            made.append(PARTS[below(PARTS.length)]);
            made.append(OFTEN[below(OFTEN.length)]);
        }
        return made.toString();
    }

    private static final String[] PARTS = {"a", "b", "ab", "[ab]", "[^a]", ".", "\\d", "\\w", "\\s", "(a|b)", "(a)", "(?:ab|a)", "(?<n>b)", "^", "$",
        "\\b", "|", "(a*b)", "(?=b)", "(?!a)", "(?<=a)", "(?>a*)", "\\1", "[a-c&&[^b]]", "(?i)A", "\\Qa\\E", "\\p{Lower}", "1", "-", "(", "[", ","};
    private static final String[] OFTEN = {"", "", "", "", "", "*", "+", "?", "{1,2}", "*?", "+?", "??", "?+", "*+", "{2}", "{1,}"};

    /** Not with groups that are never gone back into: what they were in a try that failed, a JVM keeps. */
    public Pattern aPattern() {
        while (true) {
            try {
                String form = aForm();
                if (!form.contains(")*+") && !form.contains(")?+")) {
                    return Pattern.compile(form);
                }
            } catch (PatternSyntaxException wrong) {
                add(1);
            }
        }
    }

    /** Lets a matcher begin anew where it found nothing. */
    public void settle(Matcher of) {
        try {
            of.start();
        } catch (IllegalStateException none) {
            of.reset();
        }
    }

    public Matcher aMatcher() {
        return aPattern().matcher(aText());
    }

    public MatchResult aResult() {
        Matcher made = aMatcher();
        made.find();
        return made.toMatchResult();
    }

    public CharSequence aSequence() {
        int kind = below(8);
        return kind == 0 ? new StringBuilder(aText()) : kind == 1 ? new StringBuffer(aText()) : aText();
    }

    public Object anObject() {
        int kind = below(16);
        if (kind == 0 && mode != ORDERED) {
            return null;
        }
        if (mode == CONSTANTS && kind < 14) {
            return aConstant();
        }
        return mode == ORDERED || kind < 11 ? Integer.valueOf(below(10)) : kind < 15 ? TEXTS[below(8)] : (Object) Character.valueOf('a');
    }

    public Object aThing() {
        int kind = below(12);
        return kind < 8 ? anObject() : kind == 8 ? aList() : kind == 9 ? aSet() : kind == 10 ? aMap() : objects();
    }

    private <C extends Collection> C filled(C into) {
        for (int count = below(6); count > 0; count--) {
            try {
                into.add(anObject());
            } catch (NullPointerException | ClassCastException none) {
                add(1);
            }
        }
        return into;
    }

    private <M extends Map> M filled(M into) {
        for (int count = below(6); count > 0; count--) {
            try {
                into.put(anObject(), anObject());
            } catch (NullPointerException | ClassCastException none) {
                add(1);
            }
        }
        return into;
    }

    public Collection aCollection() {
        int kind = below(6);
        return kind == 0 ? aSet() : kind == 1 ? filled(new LinkedHashSet<>()) : kind == 2 ? filled(new ArrayDeque<>()) : aList();
    }

    public List aList() {
        int kind = below(4);
        return kind == 0 ? filled(new LinkedList<>()) : kind == 1 ? Arrays.asList(objects()) : filled(new ArrayList<>());
    }

    /** Constants have the hash codes of a run, so they are in no HashSet and no HashMap. */
    public Set aSet() {
        return mode == CONSTANTS || below(3) == 0 ? filled(new LinkedHashSet<>()) : filled(new HashSet<>());
    }

    public Deque aDeque() {
        return below(2) == 0 ? filled(new LinkedList<>()) : filled(new ArrayDeque<>());
    }

    public Map aMap() {
        int kind = below(4);
        return mode == CONSTANTS || kind == 0 ? filled(new LinkedHashMap<>()) : filled(new HashMap<>());
    }

    public SortedMap aSortedMap() {
        return filled(new TreeMap<>(aComparator()));
    }

    public SortedSet aSortedSet() {
        return filled(new TreeSet<>(aComparator()));
    }

    public Iterator anIterator() {
        return aCollection().iterator();
    }

    public Comparator aComparator() {
        int kind = below(3);
        return mode != ORDERED ? (kind == 0 ? Collections.reverseOrder(ANY) : ANY) : kind == 0 ? Collections.reverseOrder() : kind == 1 ? null : ANY;
    }

    private static final Comparator<Object> ANY = (one, other) ->
        one == null || other == null ? (one == other ? 0 : one == null ? -1 : 1) : one.toString().compareTo(other.toString());

    public Object[] objects() {
        Object[] made = new Object[below(5)];
        for (int at = 0; at < made.length; at++) {
            made[at] = anObject();
        }
        return made;
    }

    public Comparable[] comparables() {
        Comparable[] made = new Comparable[below(5)];
        for (int at = 0; at < made.length; at++) {
            made[at] = below(10);
        }
        return made;
    }

    public String[] texts() {
        String[] made = new String[below(4)];
        for (int at = 0; at < made.length; at++) {
            made[at] = aText();
        }
        return made;
    }

    public CharSequence[] sequences() {
        return texts();
    }

    public int[] ints() {
        int[] made = new int[below(6)];
        for (int at = 0; at < made.length; at++) {
            made[at] = anInt();
        }
        return made;
    }

    public long[] longs() {
        long[] made = new long[below(6)];
        for (int at = 0; at < made.length; at++) {
            made[at] = aLong();
        }
        return made;
    }

    public char[] chars() {
        return aText().toCharArray();
    }

    public byte[] bytes() {
        byte[] made = new byte[below(8)];
        for (int at = 0; at < made.length; at++) {
            made[at] = (byte) (below(3) == 0 ? below(256) : 'a' + below(4));
        }
        return made;
    }

    public short[] shorts() {
        short[] made = new short[below(6)];
        for (int at = 0; at < made.length; at++) {
            made[at] = aShort();
        }
        return made;
    }

    public boolean[] booleans() {
        boolean[] made = new boolean[below(6)];
        for (int at = 0; at < made.length; at++) {
            made[at] = aBoolean();
        }
        return made;
    }

    public BitSet aBits() {
        BitSet made = new BitSet();
        for (int count = below(5); count > 0; count--) {
            made.set(below(70));
        }
        return made;
    }

    public BigInteger aWhole() {
        int kind = below(8);
        BigInteger made = BigInteger.valueOf(kind < 3 ? anInt() : kind < 6 ? state : (long) state << 32 ^ below(1 << 30));
        return kind == 7 ? made.multiply(BigInteger.valueOf(state)) : made;
    }

    public BigDecimal aDecimal() {
        return new BigDecimal(aWhole(), anInt());
    }

    public MathContext aContext() {
        return new MathContext(below(12), aRounding());
    }

    public RoundingMode aRounding() {
        return RoundingMode.values()[below(8)];
    }

    public TimeUnit aUnit() {
        return TimeUnit.values()[below(7)];
    }

    public PriorityQueue aHeap() {
        return filled(new PriorityQueue<>(aComparator()));
    }

    public Charset aCharset() {
        int kind = below(4);
        return kind == 0 ? StandardCharsets.US_ASCII : kind == 1 ? StandardCharsets.ISO_8859_1 : StandardCharsets.UTF_8;
    }

    public String aCharsetName() {
        return aCharset().name();
    }

    public Class aClass() {
        int kind = below(4);
        if (mode == CONSTANTS && kind > 0) {
            return Constant.class;
        }
        return kind == 0 ? Integer.class : kind == 1 ? String.class : kind == 2 ? Object.class : Comparable.class;
    }

    public InputStream anInput() {
        return new ByteArrayInputStream(bytes());
    }

    public Reader aReader() {
        return new StringReader(aText() + (aBoolean() ? "\n" : aBoolean() ? "\r\n" : "-") + aText());
    }

    public Throwable aThrowable() {
        return aBoolean() ? new IllegalStateException(aText()) : null;
    }
}
