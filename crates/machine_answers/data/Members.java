import org.junit.Assert;

/** Fields, statics and calls of each kind. */
public class Members {
    static final int SEVEN = 7;
    static final long WIDE = 1L << 40;
    static final String TEXT = "text";
    static int count;
    static long total = 5;
    static Object shared;
    int number;
    long wide;
    byte small;
    char letter;
    short middle;
    boolean flag;
    Object object;

    interface Shape {
        int area();

        default int twice() {
            return area() + area();
        }

        static int unit() {
            return 1;
        }
    }

    interface Named {
        int STARTED = Members.next();

        default String name() {
            return "named";
        }
    }

    interface Titled extends Named {
        default String name() {
            return "titled " + size();
        }

        int size();
    }

    static class Square implements Shape, Titled {
        protected final int side;
        static int made;

        static {
            made = 100;
        }

        Square(int side) {
            this.side = side;
            made++;
        }

        public int area() {
            return side * side;
        }

        public int size() {
            return side;
        }

        private int hidden() {
            return 1;
        }

        int shown() {
            return hidden();
        }

        static String kind() {
            return "square";
        }
    }

    static class Tall extends Square {
        int side = 50;

        Tall(int side) {
            super(side);
        }

        public int area() {
            return super.area() + this.side + super.side;
        }

        private int hidden() {
            return 2;
        }

        public int twice() {
            return super.twice() + 1;
        }

        static String kind() {
            return "tall";
        }
    }

    static abstract class Base {
        int seen;

        Base() {
            seen = value();
        }

        abstract int value();
    }

    static class Late extends Base {
        int field = 3;

        int value() {
            return field + 1;
        }
    }

    static int next() {
        return ++count;
    }

    static int fibonacci(int n) {
        return n < 2 ? n : fibonacci(n - 1) + fibonacci(n - 2);
    }

    static long mixed(int a, long b, byte c, boolean d, Object e, long f) {
        return a + b * 10 + c * 100 + (d ? 1000 : 0) + (e == null ? 10000 : 0) + f * 100000;
    }

    public void fields() {
        Assert.assertEquals(0, number);
        Assert.assertEquals(0L, wide);
        Assert.assertNull(object);
        Assert.assertFalse(flag);
        number = -1;
        wide = Long.MAX_VALUE;
        small = (byte) 200;
        letter = (char) -2;
        middle = (short) 40000;
        flag = true;
        object = this;
        number += 5;
        wide++;
        letter++;
        Assert.assertEquals(4, number);
        Assert.assertEquals(Long.MIN_VALUE, wide);
        Assert.assertEquals(-56, small);
        Assert.assertEquals(65535, letter);
        Assert.assertEquals(-25536, middle);
        Assert.assertTrue(flag);
        Assert.assertSame(this, object);
        Assert.assertEquals(9, ((Members) object).number += 5);
    }

    public void statics() {
        Assert.assertEquals(0, count);
        Assert.assertEquals(1, next());
        Assert.assertEquals(2, next());
        total *= 3;
        Assert.assertEquals(15L, total);
        shared = TEXT;
        Assert.assertSame("text", shared);
        Assert.assertEquals(1099511627776L, WIDE);
        Assert.assertEquals(100, Square.made);
        Assert.assertEquals(100, Tall.made++);
        Assert.assertEquals(101, Square.made);
        // Square began behind Named, which has a default method
        Assert.assertEquals(3, count);
        Assert.assertEquals(3, Named.STARTED);
        Assert.assertEquals(3, count);
    }

    public void calls() {
        Square square = new Square(3);
        Square tall = new Tall(4);
        Shape shape = tall;
        Assert.assertEquals(9, square.area());
        Assert.assertEquals(16 + 50 + 4, tall.area());
        Assert.assertEquals(18, square.twice());
        Assert.assertEquals(141, shape.twice());
        Assert.assertEquals(1, Shape.unit());
        Assert.assertEquals("titled 4", ((Named) shape).name());
        Assert.assertEquals("titled 3", square.name());
        Assert.assertEquals(1, tall.shown());
        Assert.assertEquals("square", Square.kind());
        Assert.assertEquals("tall", Tall.kind());
        Assert.assertEquals(4, tall.side);
        Assert.assertEquals(50, ((Tall) tall).side);
        Assert.assertEquals(102, Square.made);
        Assert.assertEquals(55, fibonacci(10));
        Assert.assertEquals(311321L, mixed(1, 2, (byte) 3, false, null, 3) + 1000);
    }

    public void starts() {
        Late late = new Late();
        Assert.assertEquals(1, late.seen);
        Assert.assertEquals(4, late.value());
    }

    public void nulls() {
        Members none = null;
        Shape shape = null;
        int met = 0;
        try {
            met = none.number;
        } catch (NullPointerException e) {
            met++;
        }
        try {
            none.wide = 5;
        } catch (NullPointerException e) {
            met++;
        }
        try {
            none.starts();
        } catch (NullPointerException e) {
            met++;
        }
        try {
            shape.area();
        } catch (NullPointerException e) {
            met++;
        }
        try {
            synchronized (shape) {
                met = -1;
            }
        } catch (NullPointerException e) {
            met++;
        }
        try {
            RuntimeException thrown = null;
            throw thrown;
        } catch (NullPointerException e) {
            met++;
        }
        Assert.assertEquals(6, met);
    }

    public void inner() {
        class Local {
            int sum() {
                return number + SEVEN;
            }
        }
        number = 5;
        Assert.assertEquals(12, new Local().sum());
        Shape shape = new Shape() {
            public int area() {
                return number * 2;
            }
        };
        Assert.assertEquals(20, shape.twice());
    }

    public void types() {
        Object tall = new Tall(1);
        Assert.assertTrue(tall instanceof Square);
        Assert.assertTrue(tall instanceof Shape);
        Assert.assertTrue(tall instanceof Named);
        Assert.assertFalse(tall instanceof Runnable);
        Assert.assertFalse(null instanceof Object);
        Square square = (Square) tall;
        Assert.assertSame(tall, square);
        Tall none = (Tall) (Object) null;
        Assert.assertNull(none);
        int met = 0;
        try {
            Runnable other = (Runnable) tall;
        } catch (ClassCastException e) {
            met++;
        }
        try {
            Tall other = (Tall) new Square(1);
        } catch (ClassCastException e) {
            met++;
        }
        try {
            int[] other = (int[]) tall;
        } catch (ClassCastException e) {
            met++;
        }
        Assert.assertEquals(3, met);
    }

    public void monitors() {
        Object lock = new Object();
        int sum = 0;
        synchronized (lock) {
            synchronized (lock) {
                sum += 1;
            }
            synchronized (this) {
                sum += 2;
            }
        }
        try {
            synchronized (lock) {
                throw new IllegalStateException("left");
            }
        } catch (IllegalStateException e) {
            sum += 4;
        }
        sum += locked(8);
        Assert.assertEquals(15, sum);
    }

    synchronized int locked(int n) {
        return n <= 0 ? 0 : 1 + locked(n - 1) + guarded(-1);
    }

    static synchronized int guarded(int n) {
        if (n == 0) {
            throw new IllegalStateException();
        }
        return n + 1;
    }
}
