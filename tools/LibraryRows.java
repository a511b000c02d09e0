import java.io.IOException;
import java.nio.file.Files;
import java.nio.file.Path;
import java.util.ArrayList;
import java.util.Arrays;
import java.util.Collection;
import java.util.Collections;
import java.util.LinkedHashMap;
import java.util.List;
import java.util.Optional;
import java.util.Set;
import java.util.regex.Pattern;
import java.util.stream.Collectors;

/** Prints calls of Java's own library with what they give, as `crates/library_answers` prints them. */
public class LibraryRows {
    /** The native methods, each at the place of its number. */
    static final List<String> NATIVES = new ArrayList<>();

    interface Call {
        Object run() throws Throwable;
    }

    /** An object that keeps a number, as an argument. */
    record Kept(Object box) {}

    /** What an argument is written as. */
    record Written(String text) {}

    enum Hue { RED, GREEN, BLUE }

    static String text(String s) {
        boolean plain = s.chars().allMatch(c -> c > 32 && c < 127);
        return plain ? "text:" + s : "units:" + units(s);
    }

    static String units(String s) {
        return s.chars().mapToObj(Integer::toString).collect(Collectors.joining(","));
    }

    static String number(Object o) {
        if (o instanceof Boolean b) {
            return b ? "1" : "0";
        }
        if (o instanceof Character c) {
            return "" + (int) c;
        }
        return o.toString();
    }

    static String making(Object box) {
        return box.getClass().getSimpleName();
    }

    static String datum(Object o) {
        if (o == null) {
            return "null";
        }
        if (o instanceof Written w) {
            return w.text();
        }
        if (o instanceof Kept k) {
            return making(k.box()) + ":" + datum(k.box());
        }
        if (o instanceof String || o instanceof StringBuilder) {
            return text(o.toString());
        }
        if (o instanceof Throwable t) {
            return "Throwable:" + t.getMessage() + ",null";
        }
        if (o instanceof Optional<?> held) {
            return "Optional:" + (held.isPresent() ? held.get() : "");
        }
        if (o instanceof List<?> list) {
            return "List:" + ints(list);
        }
        if (o instanceof Set<?> set) {
            return "Set:" + set.stream().map(key -> key.hashCode() + "," + key + ",null").collect(Collectors.joining(","));
        }
        if (o instanceof char[] chars) {
            return "char[]:" + units(new String(chars));
        }
        if (o instanceof Class<?> c) {
            return "Class:" + c.getName().replace('.', '/');
        }
        return number(o) + (o instanceof Long ? "L" : "");
    }

    static final Object NOTHING = new Written("nothing");

    /** What a call gives, or the name of what it throws. */
    static String given(Call call) {
        try {
            return datum(call.run());
        } catch (Throwable t) {
            return t.getClass().getSimpleName();
        }
    }

    /** A native method by its number and its name, with these arguments. */
    static String called(String name, Object... args) {
        if (!NATIVES.contains(name)) {
            throw new IllegalArgumentException(name);
        }
        StringBuilder line = new StringBuilder(NATIVES.indexOf(name) + " " + name);
        for (Object arg : args) {
            line.append(' ').append(datum(arg));
        }
        return line.toString();
    }

    static void row(String name, Call call, Object... args) {
        System.out.println(called(name, args) + " -> " + given(call));
    }

    static Kept kept(Object box) {
        return new Kept(box);
    }

    static void texts() {
        String pair = "a\ud83d\ude00b";
        for (String s : new String[] {"", "abc", pair}) {
            row("Text.Length", () -> s.length(), s);
            row("Text.IsEmpty", () -> s.isEmpty(), s);
            row("Text.Itself", () -> s.toString(), s);
            row("Text.Chars", () -> s.toCharArray(), s);
        }
        for (int i : new int[] {0, 2, 3, 4, -1}) {
            row("Text.CharAt", () -> "abc".charAt(i), "abc", i);
            row("Text.SubstringFrom", () -> "abc".substring(i), "abc", i);
        }
        row("Text.CharAt", () -> pair.charAt(1), pair, 1);
        for (Object o : new Object[] {"abc", "abd", "ab", "abcd", null}) {
            String s = (String) o;
            row("Text.Equals", () -> "abc".equals(s), "abc", s);
            row("Text.Compare", () -> "abc".compareTo(s), "abc", s);
            row("Text.CompareAny", () -> ((Comparable) "abc").compareTo(s), "abc", s);
            row("Text.Concat", () -> "abc".concat(s), "abc", s);
            row("Text.IndexOfText", () -> "xabcabd".indexOf(s), "xabcabd", s);
            row("Text.StartsWith", () -> "abc".startsWith(s), "abc", s);
            row("Text.EndsWith", () -> "abc".endsWith(s), "abc", s);
            row("Builder.AppendText", () -> new StringBuilder("x").append(s), "x", s);
        }
        row("Text.Equals", () -> "1".equals(1), "1", kept(1));
        row("Text.CompareAny", () -> ((Comparable) "1").compareTo(1), "1", kept(1));
        row("Text.Compare", () -> "\uffff".compareTo("a"), "\uffff", "a");
        row("Text.IndexOfText", () -> "".indexOf(""), "", "");
        row("Text.EndsWith", () -> "abc".endsWith("bc"), "abc", "bc");
        for (String s : new String[] {"", "a", "hello", "polygenelubricants", "\uffff\uffff\uffff"}) {
            row("Text.Hash", () -> s.hashCode(), s);
        }
        int[][] spans = {{1, 2}, {0, 0}, {2, 1}, {0, 4}, {-1, 1}, {3, 3}, {0, 3}, {0, -1}};
        for (int[] span : spans) {
            row("Text.Substring", () -> "abc".substring(span[0], span[1]), "abc", span[0], span[1]);
        }
        for (int c : new int[] {'a', 'b', 'z', -1, 0x1f600, 0xd83d, 0xde00, 0x110000, 0x1f601}) {
            row("Text.IndexOfChar", () -> pair.indexOf(c), pair, c);
        }
        for (int z : new int[] {0, -1, 1234567890, Integer.MIN_VALUE}) {
            row("Text.OfInt", () -> String.valueOf(z), z);
            row("Builder.AppendInt", () -> new StringBuilder("x").append(z), "x", z);
        }
        for (long z : new long[] {0, -1, Long.MAX_VALUE, Long.MIN_VALUE}) {
            row("Text.OfLong", () -> String.valueOf(z), z);
            row("Builder.AppendLong", () -> new StringBuilder("x").append(z), "x", z);
        }
        for (char c : new char[] {'x', '\ud83d'}) {
            row("Text.OfChar", () -> String.valueOf(c), c);
            row("Builder.AppendChar", () -> new StringBuilder("x").append(c), "x", c);
        }
        for (boolean b : new boolean[] {false, true}) {
            row("Text.OfBool", () -> String.valueOf(b), b);
            row("Builder.AppendBool", () -> new StringBuilder("x").append(b), "x", b);
        }
        for (int n : new int[] {0, 16, -1}) {
            row("Builder.OfCapacity", () -> {
                new StringBuilder(n);
                return NOTHING;
            }, "", n);
        }
        row("Builder.OfText", () -> {
            new StringBuilder((String) null);
            return NOTHING;
        }, "", null);
        row("Builder.ToText", () -> new StringBuilder("xy").toString(), "xy");
    }

    static void boxes() {
        for (int z : new int[] {127, 128, -129, Integer.MIN_VALUE}) {
            row("Box.OfInt", () -> kept(Integer.valueOf(z)), z);
            Kept k = kept(z);
            row("Box.IntValue", () -> Integer.valueOf(z).intValue(), k);
            row("Box.IntAsLong", () -> Integer.valueOf(z).longValue(), k);
            row("Box.IntText", () -> Integer.valueOf(z).toString(), k);
            row("Order.IntEquals", () -> Integer.valueOf(z).equals(128), k, kept(128));
            row("Order.CompareBox", () -> Integer.valueOf(z).compareTo(127), k, kept(127));
            row("Order.CompareInts", () -> Integer.compare(z, 127), z, 127);
            row("Number.AbsInt", () -> Math.abs(z), z);
            row("Number.MaxInt", () -> Math.max(z, 5), z, 5);
            row("Number.MinInt", () -> Math.min(z, 5), z, 5);
        }
        row("Order.IntEquals", () -> Integer.valueOf(1).equals(1L), kept(1), kept(1L));
        row("Order.IntEquals", () -> Integer.valueOf(1).equals(null), kept(1), null);
        row("Order.CompareBox", () -> Integer.valueOf(1).compareTo(null), kept(1), null);
        for (long z : new long[] {-1, 128, Long.MIN_VALUE, 0x123456789abcdefL}) {
            row("Box.OfLong", () -> kept(Long.valueOf(z)), z);
            Kept k = kept(z);
            row("Box.LongValue", () -> Long.valueOf(z).longValue(), k);
            row("Box.LongAsInt", () -> Long.valueOf(z).intValue(), k);
            row("Box.LongHash", () -> Long.valueOf(z).hashCode(), k);
            row("Box.LongText", () -> Long.valueOf(z).toString(), k);
            row("Order.LongEquals", () -> Long.valueOf(z).equals(128L), k, kept(128L));
            row("Order.CompareLongBox", () -> Long.valueOf(z).compareTo(127L), k, kept(127L));
            row("Order.CompareLongs", () -> Long.compare(z, 127L), z, 127L);
            row("Number.AbsLong", () -> Math.abs(z), z);
            row("Number.MaxLong", () -> Math.max(z, 5L), z, 5L);
            row("Number.MinLong", () -> Math.min(z, 5L), z, 5L);
        }
        row("Order.LongEquals", () -> Long.valueOf(1).equals(1), kept(1L), kept(1));
    }

    static void numbers() {
        for (short z : new short[] {0, -1, Short.MIN_VALUE}) {
            row("Box.OfShort", () -> kept(Short.valueOf(z)), z);
            row("Order.ShortEquals", () -> Short.valueOf(z).equals((short) -1), kept(z), kept((short) -1));
            row("Order.SubtractBox", () -> Short.valueOf(z).compareTo((short) 7), kept(z), kept((short) 7));
        }
        for (byte z : new byte[] {0, -1, Byte.MIN_VALUE}) {
            row("Box.OfByte", () -> kept(Byte.valueOf(z)), z);
            row("Order.ByteEquals", () -> Byte.valueOf(z).equals((byte) -1), kept(z), kept((byte) -1));
        }
        for (char c : new char[] {'0', 'a', '@', '['}) {
            row("Box.OfChar", () -> kept(Character.valueOf(c)), c);
            row("Box.CharText", () -> Character.valueOf(c).toString(), kept(c));
            row("Order.CharEquals", () -> Character.valueOf(c).equals('a'), kept(c), kept('a'));
            row("Number.IsDigit", () -> Character.isDigit(c), c);
            row("Number.IsLetter", () -> Character.isLetter(c), c);
        }
        for (boolean b : new boolean[] {false, true}) {
            row("Box.OfBool", () -> kept(Boolean.valueOf(b)), b);
            row("Box.BoolHash", () -> Boolean.valueOf(b).hashCode(), kept(b));
            row("Box.BoolText", () -> Boolean.valueOf(b).toString(), kept(b));
            row("Order.BoolEquals", () -> Boolean.valueOf(b).equals(true), kept(b), kept(true));
        }
        String[] numbers = {"0", "-0", "+5", "2147483647", "2147483648", "-2147483648", "-2147483649", "",
            "+", "-", " 1", "1a", "00012", "+-1", "99999999999999999999"};
        for (String s : numbers) {
            row("Number.ParseInt", () -> Integer.parseInt(s), s);
        }
        int[][] pairs = {{5, 3}, {-5, 3}, {5, -3}, {-5, -3}, {Integer.MIN_VALUE, -1}, {0, 5}, {6, -3}, {1, 0}};
        for (int[] p : pairs) {
            row("Number.FloorMod", () -> Math.floorMod(p[0], p[1]), p[0], p[1]);
        }
    }

    static void objects() {
        Object red = new Written("Hue:RED,0");
        Object blue = new Written("Hue:BLUE,2");
        row("Object.EnumName", () -> Hue.BLUE.name(), blue);
        row("Object.EnumName", () -> Hue.RED.toString(), red);
        row("Object.EnumOrdinal", () -> Hue.BLUE.ordinal(), blue);
        row("Object.CompareEnum", () -> Hue.BLUE.compareTo(Hue.RED), blue, red);
        row("Object.CompareEnum", () -> Hue.RED.compareTo(Hue.BLUE), red, blue);
        row("Object.CompareEnum", () -> Hue.RED.compareTo(null), red, null);
        Comparable green = Hue.GREEN;
        row("Object.CompareAny", () -> green.compareTo(Hue.BLUE), new Written("Hue:GREEN,1"), blue);
        row("Object.CompareAny", () -> green.compareTo(Hue.RED), new Written("Hue:GREEN,1"), red);
        row("Object.CompareAny", () -> green.compareTo(null), new Written("Hue:GREEN,1"), null);
        row("Object.CompareAny", () -> green.compareTo("x"), new Written("Hue:GREEN,1"), "x");
        row("Object.CompareAny", () -> green.compareTo(1), new Written("Hue:GREEN,1"), kept(1));
        char[] chars = {'a'};
        row("Object.ClassOf", () -> "x".getClass(), "x");
        row("Object.ClassOf", () -> Integer.valueOf(1).getClass(), kept(1));
        row("Object.ClassOf", () -> chars.getClass(), (Object) chars);
        row("Object.ClassOf", () -> Optional.empty().getClass(), new Written("Optional:"));
        row("Object.ClassOf", () -> new Throwable("why", null).getClass(), new Written("Throwable:why,null"));
        row("Object.SameObject", () -> new Object().equals(null), "x", null);
        row("Object.SameObject", () -> new Object().equals(new Object()), "x", "y");
        row("Throwable.Message", () -> new Throwable("why", null).getMessage(), new Written("Throwable:why,null"));
        row("Throwable.Cause", () -> new Throwable("why", null).getCause(), new Written("Throwable:why,null"));
        row("Object.NameOfClass", () -> String.class.getName(), String.class);
        row("Object.NameOfClass", () -> char[].class.getName(), char[].class);
        row("Object.NameOfClass", () -> String[].class.getName(), String[].class);
        row("Object.AssertionStatus", () -> String.class.desiredAssertionStatus(), String.class);
        row("Optional.Of", () -> Optional.of(null), new Object[] {null});
        row("Optional.Of", () -> Optional.of("x"), "x");
        row("Optional.Empty", () -> Optional.empty());
        row("Optional.OfNullable", () -> Optional.ofNullable(null), new Object[] {null});
        row("Optional.OfNullable", () -> Optional.ofNullable("x"), "x");
        row("Optional.IsPresent", () -> Optional.empty().isPresent(), new Written("Optional:"));
        row("Optional.IsPresent", () -> Optional.of("x").isPresent(), new Written("Optional:x"));
        row("Optional.Value", () -> Optional.of("x").get(), new Written("Optional:x"));
        row("Optional.Value", () -> Optional.empty().get(), new Written("Optional:"));
        row("Optional.OrElse", () -> Optional.empty().orElse("y"), new Written("Optional:"), "y");
        row("Optional.OrElse", () -> Optional.of("x").orElse("y"), new Written("Optional:x"), "y");
        row("Optional.OrElse", () -> Optional.empty().orElse(null), new Written("Optional:"), null);
    }

    /** A call, another one on its receiver, and what that gives. */
    static void thenRow(String name, Call call, String then, Object... args) {
        String first = called(name, args);
        System.out.println(first + " | " + called(then, new Written("first")) + " -> nothing | " + given(call));
    }

    static void thens() {
        Written bare = new Written("Throwable:null,null");
        Written thrown = new Written("Throwable:why,null");
        Written red = new Written("Hue:,7");
        Throwable why = new Throwable("why", null);
        thenRow("Object.DoNothing", () -> new Throwable().getMessage(), "Throwable.Message", bare);
        thenRow("Throwable.SetMessage", () -> new Throwable("it").getMessage(), "Throwable.Message", bare, "it");
        thenRow("Throwable.SetMessage", () -> new Throwable("it").getCause(), "Throwable.Cause", bare, "it");
        thenRow("Throwable.SetCause", () -> new Throwable(why).getCause(), "Throwable.Cause", bare, thrown);
        thenRow("Throwable.SetMessageAndCause", () -> new Throwable("it", why).getMessage(), "Throwable.Message", bare, "it", thrown);
        thenRow("Throwable.SetMessageAndCause", () -> new Throwable("it", why).getCause(), "Throwable.Cause", bare, "it", thrown);
        thenRow("Object.EnumInit", () -> Hue.RED.name(), "Object.EnumName", red, "RED", 0);
        thenRow("Object.EnumInit", () -> Hue.RED.ordinal(), "Object.EnumOrdinal", red, "RED", 0);
    }

    interface ListCall {
        Object run(ArrayList<Object> list) throws Throwable;
    }

    static String ints(Collection<?> list) {
        return list.stream().map(Object::toString).collect(Collectors.joining(","));
    }

    /** The arguments behind a list of these items. */
    static Object[] behind(String items, Object... args) {
        List<Object> all = new ArrayList<>(List.of(new Written("List:" + items)));
        all.addAll(Arrays.asList(args));
        return all.toArray();
    }

    /** A call on a list of 1, 2 and so on, and what the list is behind it. */
    static void listRow(String name, ListCall call, int length, Object... args) {
        ArrayList<Object> list = new ArrayList<>();
        for (int z = 1; z <= length; z++) {
            list.add(z);
        }
        String before = ints(list);
        String gives = given(() -> call.run(list));
        System.out.println(called(name, behind(before, args)) + " -> " + gives + " leaves List:" + ints(list));
    }

    static void lists() {
        for (int i : new int[] {0, 2, 3, 4, -1}) {
            listRow("List.Get", list -> list.get(i), 3, i);
            listRow("List.Set", list -> list.set(i, 9), 3, i, 9);
            listRow("List.Remove", list -> list.remove(i), 3, i);
            listRow("List.Insert", list -> {
                list.add(i, 9);
                return NOTHING;
            }, 3, i, 9);
        }
        for (int length : new int[] {0, 2}) {
            listRow("List.Size", list -> list.size(), length);
            listRow("List.IsEmpty", list -> list.isEmpty(), length);
            listRow("List.Add", list -> list.add(9), length, 9);
            listRow("List.Clear", list -> {
                list.clear();
                return NOTHING;
            }, length);
        }
        for (int n : new int[] {0, 7, -1}) {
            listRow("List.OfCapacity", list -> {
                new ArrayList<Object>(n);
                return NOTHING;
            }, 0, n);
        }
    }

    interface EntryCall {
        Object run(LinkedHashMap<Object, Object> map) throws Throwable;
    }

    /** The entries of a map as hash, key and value. */
    static String entries(LinkedHashMap<Object, Object> map) {
        List<Object> list = new ArrayList<>();
        map.forEach((key, value) -> list.addAll(List.of(key.hashCode(), key, value)));
        return ints(list);
    }

    /** A call on a map of so many entries, in order of insertion, and what the map is behind it. */
    static void entryRow(String name, EntryCall call, int length, Object... args) {
        LinkedHashMap<Object, Object> map = new LinkedHashMap<>();
        for (int z = 1; z <= length; z++) {
            map.put(4 + z, 10 * z);
        }
        String before = entries(map);
        String gives = given(() -> call.run(map));
        System.out.println(called(name, behind(before, args)) + " -> " + gives + " leaves List:" + entries(map));
    }

    static Object keyAt(LinkedHashMap<Object, Object> map, int i) {
        return new ArrayList<>(map.keySet()).get(i);
    }

    static void entryRows() {
        for (int length : new int[] {0, 2}) {
            entryRow("Entry.Count", map -> map.size(), length);
            entryRow("Entry.KeySet", map -> map.keySet(), length);
            entryRow("Entry.ValueList", map -> new ArrayList<>(map.values()), length);
            entryRow("Entry.Add", map -> {
                map.put(9, 90);
                return NOTHING;
            }, length, 9, 9, 90);
        }
        for (int i : new int[] {0, 1, 2, -1}) {
            entryRow("Entry.Hash", map -> keyAt(map, i).hashCode(), 2, i);
            entryRow("Entry.Key", map -> keyAt(map, i), 2, i);
            entryRow("Entry.Value", map -> map.get(keyAt(map, i)), 2, i);
            entryRow("Entry.SetValue", map -> map.put(keyAt(map, i), 9), 2, i, 9);
            entryRow("Entry.Cut", map -> map.remove(keyAt(map, i)), 2, i);
        }
    }

    static void makings() {
        Object[] none = null;
        row("Iterator.EmptyList", () -> Collections.emptyList());
        row("Iterator.EmptySet", () -> Collections.emptySet());
        row("Iterator.AsList", () -> Arrays.asList(new Object[] {7, 8}), new Written("Object[]:7,8"));
        row("Iterator.AsList", () -> Arrays.asList(none), new Object[] {null});
    }

    public static void main(String[] args) throws IOException {
        String code = Files.readString(Path.of(args[0]));
        String all = code.substring(code.indexOf("const NATIVES"));
        Pattern.compile("(\\w+)Native::(\\w+)\\)+,").matcher(all).results()
            .forEach(found -> NATIVES.add(found.group(1) + "." + found.group(2)));
        texts();
        boxes();
        numbers();
        objects();
        thens();
        lists();
        entryRows();
        makings();
    }
}
