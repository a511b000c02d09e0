import org.junit.Assert;

/** Arithmetic, shifts and conversions of int and long. */
public class Numbers {
    static int least = Integer.MIN_VALUE;
    static int most = Integer.MAX_VALUE;
    static long leastLong = Long.MIN_VALUE;
    static long mostLong = Long.MAX_VALUE;

    public void ints() {
        int minus = -1;
        int a = -7;
        int b = 2;
        Assert.assertEquals(Integer.MIN_VALUE, least / minus);
        Assert.assertEquals(0, least % minus);
        Assert.assertEquals(-3, a / b);
        Assert.assertEquals(-1, a % b);
        Assert.assertEquals(1, 7 % (a + 5));
        Assert.assertEquals(Integer.MIN_VALUE, most + 1);
        Assert.assertEquals(Integer.MAX_VALUE, least - 1);
        Assert.assertEquals(Integer.MIN_VALUE, -least);
        Assert.assertEquals(1, most * most);
        Assert.assertEquals(131073, 65537 * (b + 65535));
        Assert.assertEquals(8, 12 & (b + 8));
        Assert.assertEquals(14, 12 | (b + 8));
        Assert.assertEquals(-11, minus ^ (b + 8));
        Assert.assertEquals(-1, ~(b - 2));
    }

    public void longs() {
        long minus = -1;
        long a = -7;
        long b = 2;
        Assert.assertEquals(Long.MIN_VALUE, leastLong / minus);
        Assert.assertEquals(0L, leastLong % minus);
        Assert.assertEquals(-3L, a / b);
        Assert.assertEquals(-1L, a % b);
        Assert.assertEquals(Long.MIN_VALUE, mostLong + 1);
        Assert.assertEquals(Long.MAX_VALUE, leastLong - 1);
        Assert.assertEquals(Long.MIN_VALUE, -leastLong);
        Assert.assertEquals(1L, mostLong * mostLong);
        Assert.assertEquals(8L, 12L & (b + 8));
        Assert.assertEquals(14L, 12L | (b + 8));
        Assert.assertEquals(-11L, minus ^ (b + 8));
        Assert.assertTrue(leastLong < mostLong);
        Assert.assertFalse(leastLong > b);
        Assert.assertTrue(a <= minus);
        Assert.assertTrue(b >= 2);
        Assert.assertTrue(b == 2);
        Assert.assertFalse(b != 2);
    }

    public void shifts() {
        int wide = 64;
        int past = 33;
        Assert.assertEquals(1L, 1L << wide);
        Assert.assertEquals(Long.MIN_VALUE, 1L << (wide - 1));
        Assert.assertEquals(2, 1 << past);
        Assert.assertEquals(-4, -16 >> (past + 1));
        Assert.assertEquals(1073741820, -16 >>> (past + 1));
        Assert.assertEquals(-4L, -8L >> (wide + 1));
        Assert.assertEquals(9223372036854775804L, -8L >>> (wide + 1));
        Assert.assertEquals(Integer.MIN_VALUE, 1 << -1 - wide);
        Assert.assertEquals(1, least >>> 31);
        Assert.assertEquals(-1, least >> 31);
    }

    public void conversions() {
        long big = 4294967299L;
        int wide = 98304;
        int two = 200;
        Assert.assertEquals(3, (int) big);
        Assert.assertEquals(-1L, (long) (two - 201));
        Assert.assertEquals(-56, (byte) two);
        Assert.assertEquals(65535, (char) (two - 201));
        Assert.assertEquals(-32768, (short) wide);
        Assert.assertEquals(-1, (int) mostLong);
        Assert.assertEquals(0, (int) leastLong);
        Assert.assertEquals(5, (int) (char) (byte) 5);
        byte b = (byte) 127;
        b++;
        Assert.assertEquals(-128, b);
        char c = 0;
        c--;
        Assert.assertEquals(65535, c);
        short s = Short.MIN_VALUE;
        s -= 1;
        Assert.assertEquals(32767, s);
        int i = 5;
        i += 1000;
        i -= 32768;
        i += 127;
        Assert.assertEquals(-31636, i);
    }

    public void zeroDivides() {
        int zero = 0;
        long none = 0;
        int met = 0;
        try {
            met = 5 / zero;
        } catch (ArithmeticException e) {
            met++;
        }
        try {
            met = 5 % zero;
        } catch (ArithmeticException e) {
            met++;
        }
        try {
            none = 5L / none;
        } catch (ArithmeticException e) {
            met++;
        }
        try {
            none = 5L % none;
        } catch (ArithmeticException e) {
            met++;
        }
        Assert.assertEquals(4, met);
    }

    public void manyLocals() {
        int a = 1;
        long b = 2;
        int c = 3;
        long d = 4;
        long e = 5;
        int f = 6;
        long sum = a + b * c + d * e - f;
        long again = sum++ + ++sum;
        Assert.assertEquals(23L, sum);
        Assert.assertEquals(44L, again);
    }

    static int tripled(int a) {
        a = a * 3;
        return a;
    }

    static long tripled(long a) {
        a = a * 3;
        return a;
    }

    static String other(String a) {
        a = "other";
        return a;
    }

    public void firstLocals() {
        tripled(4L);
        Assert.assertEquals(6, tripled(2));
        Assert.assertEquals(15000000000L, tripled(5000000000L));
        Assert.assertSame("other", other("a"));
    }

    int count;
    long total;

    public void valuesOfStores() {
        int[] ints = {5};
        long[] longs = {7};
        Assert.assertEquals(0, count++);
        Assert.assertEquals(0L, total--);
        Assert.assertEquals(5, ints[0]++);
        Assert.assertEquals(7L, longs[0]--);
        Assert.assertEquals(1, count);
        Assert.assertEquals(-1L, total);
        Assert.assertEquals(6, ints[0]);
        Assert.assertEquals(6L, longs[0]);
    }
}
