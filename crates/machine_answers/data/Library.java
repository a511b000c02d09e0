import java.util.ArrayList;
import java.util.Arrays;
import java.util.Collections;
import java.util.HashMap;
import java.util.HashSet;
import java.util.Iterator;
import java.util.List;
import java.util.Map;
import java.util.NoSuchElementException;
import java.util.Objects;
import java.util.Optional;
import java.util.Set;
import org.junit.Assert;

/** Texts, boxes and collections. */
public class Library {
    enum Color {
        RED,
        GREEN {
            int weight() {
                return 5;
            }
        },
        BLUE;

        int weight() {
            return ordinal();
        }
    }

    static class Point {
        final int x;
        final int y;

        Point(int x, int y) {
            this.x = x;
            this.y = y;
        }

        @Override
        public boolean equals(Object other) {
            return other instanceof Point && ((Point) other).x == x && ((Point) other).y == y;
        }

        @Override
        public int hashCode() {
            return x * 31 + y;
        }

        @Override
        public String toString() {
            return "(" + x + ", " + y + ")";
        }
    }

    static class Resource implements AutoCloseable {
        static int open;

        Resource() {
            open++;
        }

        public void close() {
            open--;
        }
    }

    static class Steps implements Iterable<Integer> {
        final int count;

        Steps(int count) {
            this.count = count;
        }

        public Iterator<Integer> iterator() {
            return new Iterator<Integer>() {
                int at;

                public boolean hasNext() {
                    return at < count;
                }

                public Integer next() {
                    return at++;
                }
            };
        }
    }

    public void texts() {
        String text = "H\u00e4llo" + '!' + 5 + -7L + true + null;
        Assert.assertEquals("H\u00e4llo!5-7truenull", text);
        Assert.assertEquals(17, text.length());
        Assert.assertEquals('\u00e4', text.charAt(1));
        Assert.assertEquals("llo", text.substring(2, 5));
        Assert.assertEquals("null", text.substring(13));
        Assert.assertEquals(9, text.indexOf("true"));
        Assert.assertEquals(-1, text.indexOf("x"));
        Assert.assertEquals(5, text.indexOf('!'));
        Assert.assertTrue(text.startsWith("H\u00e4"));
        Assert.assertTrue(text.endsWith(""));
        Assert.assertTrue("a".compareTo("b") < 0);
        Assert.assertEquals(1, "ab".compareTo("a"));
        Assert.assertEquals(96354, "abc".hashCode());
        Assert.assertEquals(0, "".hashCode());
        Assert.assertTrue("".isEmpty());
        Assert.assertEquals("-2147483648", String.valueOf(Integer.MIN_VALUE));
        Assert.assertEquals("-9223372036854775808", "" + Long.MIN_VALUE);
        Assert.assertSame("con", "con");
        Assert.assertNotSame("con", new StringBuilder("con").toString());
        Assert.assertEquals("con", new StringBuilder("con").toString());
        Assert.assertEquals(3, "abc".toCharArray().length);
        Assert.assertEquals("ab", "a".concat("b"));
        Assert.assertEquals("null", String.valueOf((Object) null));
        CharSequence chars = "xyz";
        Assert.assertEquals('z', chars.charAt(2));
    }

    public void textFaults() {
        int met = 0;
        try {
            "abc".charAt(3);
        } catch (StringIndexOutOfBoundsException e) {
            met += 1;
        }
        try {
            "abc".substring(2, 1);
        } catch (IndexOutOfBoundsException e) {
            met += 10;
        }
        try {
            Integer.parseInt("12x");
        } catch (NumberFormatException e) {
            met += 100;
        }
        try {
            ((String) null).length();
        } catch (NullPointerException e) {
            met += 1000;
        }
        Assert.assertEquals(1111, met);
        Assert.assertEquals(-12, Integer.parseInt("-12"));
    }

    public void builders() {
        StringBuilder builder = new StringBuilder();
        for (int i = 0; i < 5; i++) {
            builder.append(i).append(',');
        }
        builder.append(1L).append(false).append("x").append(new Point(1, 2));
        Assert.assertEquals("0,1,2,3,4,1falsex(1, 2)", builder.toString());
        Assert.assertEquals(23, builder.length());
        Assert.assertEquals('1', builder.charAt(2));
    }

    public void boxes() {
        Integer small = 127;
        Integer again = 127;
        Integer large = 128;
        Integer other = 128;
        Long wide = 5L;
        Assert.assertSame(small, again);
        Assert.assertNotSame(large, other);
        Assert.assertEquals(large, other);
        Assert.assertFalse(wide.equals(5));
        Assert.assertEquals(133, small + 6);
        Assert.assertEquals(wide.hashCode(), 5);
        Assert.assertEquals("128", large.toString());
        Assert.assertEquals(-1, Integer.compare(1, 2));
        Assert.assertTrue(small.compareTo(large) < 0);
        Boolean yes = true;
        Character letter = 'c';
        Assert.assertSame(yes, Boolean.valueOf(true));
        Assert.assertTrue(yes);
        Assert.assertEquals('c', letter.charValue());
        Assert.assertTrue(Character.isDigit('7'));
        Assert.assertEquals(5, Math.abs(-5));
        Assert.assertEquals(Integer.MIN_VALUE, Math.abs(Integer.MIN_VALUE));
        Assert.assertEquals(9L, Math.max(9L, -9L));
        Assert.assertEquals(2, Math.floorMod(-1, 3));
        Object object = small;
        try {
            int none = (Integer) (Object) null;
            Assert.fail();
        } catch (NullPointerException e) {
            Assert.assertTrue(object instanceof Number);
        }
    }

    public void lists() {
        List<String> list = new ArrayList<>();
        list.add("a");
        list.add("c");
        list.add(1, "b");
        Assert.assertEquals(3, list.size());
        Assert.assertEquals("b", list.get(1));
        Assert.assertEquals(2, list.indexOf("c"));
        Assert.assertTrue(list.contains("a"));
        Assert.assertEquals("a", list.set(0, "z"));
        Assert.assertEquals("z", list.remove(0));
        Assert.assertTrue(list.remove("c"));
        Assert.assertFalse(list.remove("c"));
        Assert.assertEquals(Arrays.asList("b"), list);
        int met = 0;
        try {
            list.get(1);
        } catch (IndexOutOfBoundsException e) {
            met += 1;
        }
        list.clear();
        Assert.assertTrue(list.isEmpty());
        Iterator<String> none = list.iterator();
        Assert.assertFalse(none.hasNext());
        try {
            none.next();
        } catch (NoSuchElementException e) {
            met += 10;
        }
        Assert.assertEquals(11, met);
        List<Integer> numbers = new ArrayList<>();
        for (int i = 0; i < 40; i++) {
            numbers.add(i * i);
        }
        int sum = 0;
        for (int n : numbers) {
            sum += n;
        }
        Assert.assertEquals(20540, sum);
        Assert.assertTrue(Collections.emptyList().isEmpty());
    }

    public void maps() {
        Map<Object, Integer> map = new HashMap<>();
        Assert.assertNull(map.put("one", 1));
        Assert.assertNull(map.put(new Point(1, 2), 2));
        Assert.assertEquals(Integer.valueOf(1), map.put("one", 3));
        Assert.assertEquals(2, map.size());
        Assert.assertEquals(2, map.get(new Point(1, 2)).intValue());
        Assert.assertNull(map.get("two"));
        Assert.assertTrue(map.containsKey("one"));
        map.put(null, 9);
        Assert.assertEquals(9, map.get(null).intValue());
        int sum = 0;
        for (int value : map.values()) {
            sum += value;
        }
        Assert.assertEquals(14, sum);
        Assert.assertEquals(Integer.valueOf(3), map.remove("one"));
        Assert.assertNull(map.remove("one"));
        Map<Integer, String> order = new HashMap<>();
        for (int i = 1; i < 6; i++) {
            order.put(i, "v" + i);
        }
        StringBuilder walked = new StringBuilder();
        for (Integer key : order.keySet()) {
            walked.append(key).append(order.get(key));
        }
        Assert.assertEquals("1v12v23v34v45v5", walked.toString());
        Set<String> set = new HashSet<>();
        Assert.assertTrue(set.add("x"));
        Assert.assertFalse(set.add(new StringBuilder("x").toString()));
        Assert.assertTrue(set.remove("x"));
        Assert.assertTrue(set.isEmpty());
    }

    public void enums() {
        int[] weights = new int[3];
        for (Color color : Color.values()) {
            weights[color.ordinal()] = color.weight();
        }
        Assert.assertEquals(0, weights[0]);
        Assert.assertEquals(5, weights[1]);
        Assert.assertEquals(2, weights[2]);
        Assert.assertEquals("BLUE", Color.BLUE.toString());
        Assert.assertTrue(Color.RED.compareTo(Color.BLUE) < 0);
        int found = 0;
        switch (Color.values()[1]) {
            case RED:
                found = 1;
                break;
            case GREEN:
                found = 2;
                break;
            default:
                found = 3;
        }
        Assert.assertEquals(2, found);
    }

    public void objects() {
        Point one = new Point(3, 4);
        Assert.assertEquals(one, new Point(3, 4));
        Assert.assertNotEquals(one, new Point(4, 3));
        Assert.assertTrue(Objects.equals(null, null));
        Assert.assertEquals(0, Objects.hashCode(null));
        Assert.assertSame(Point.class, one.getClass());
        Assert.assertEquals("Library$Point", Point.class.getName());
        Optional<String> some = Optional.of("v");
        Assert.assertTrue(some.isPresent());
        Assert.assertEquals("v", some.get());
        Assert.assertEquals("w", Optional.<String>empty().orElse("w"));
        Assert.assertFalse(new Object().equals(new Object()));
    }

    public void resources() {
        int seen = 0;
        try (Resource one = new Resource(); Resource two = new Resource()) {
            seen = Resource.open;
            throw new IllegalStateException();
        } catch (IllegalStateException e) {
            Assert.assertEquals(0, Resource.open);
        }
        Assert.assertEquals(2, seen);
    }

    public void generics() {
        int sum = 0;
        for (int step : new Steps(5)) {
            sum += step;
        }
        Assert.assertEquals(10, sum);
        Runnable task = new Runnable() {
            public void run() {
                Resource.open = 7;
            }
        };
        task.run();
        Assert.assertEquals(7, Resource.open);
    }
}
