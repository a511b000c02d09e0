import org.junit.Assert;

/** Arrays of each kind. */
public class ArrayTests {
    public void kinds() {
        int[] ints = new int[3];
        long[] longs = {1L, Long.MIN_VALUE};
        byte[] bytes = {(byte) 300, -1};
        short[] shorts = {(short) 70000};
        char[] chars = {'a', (char) -1};
        boolean[] flags = new boolean[2];
        String[] texts = new String[4];
        ints[2] = Integer.MIN_VALUE;
        ints[1]++;
        longs[0] += 5;
        flags[1] = true;
        bytes[1] += 200;
        chars[0]++;
        shorts[0]--;
        Assert.assertEquals(3, ints.length);
        Assert.assertEquals(0, ints[0]);
        Assert.assertEquals(1, ints[1]);
        Assert.assertEquals(Integer.MIN_VALUE, ints[2]);
        Assert.assertEquals(6L, longs[0]);
        Assert.assertEquals(Long.MIN_VALUE, longs[1]);
        Assert.assertEquals(44, bytes[0]);
        Assert.assertEquals(-57, bytes[1]);
        Assert.assertEquals(4463, shorts[0]);
        Assert.assertEquals('b', chars[0]);
        Assert.assertEquals(65535, chars[1]);
        Assert.assertFalse(flags[0]);
        Assert.assertTrue(flags[1]);
        Assert.assertNull(texts[3]);
        Assert.assertEquals(0, new char[0].length);
    }

    static int tries(int[] array, int at) {
        try {
            return array[at];
        } catch (ArrayIndexOutOfBoundsException e) {
            return -1;
        } catch (NullPointerException e) {
            return -2;
        }
    }

    public void bounds() {
        int[] array = {7, 8};
        Assert.assertEquals(7, tries(array, 0));
        Assert.assertEquals(8, tries(array, 1));
        Assert.assertEquals(-1, tries(array, 2));
        Assert.assertEquals(-1, tries(array, -1));
        Assert.assertEquals(-1, tries(array, Integer.MIN_VALUE));
        Assert.assertEquals(-2, tries(null, 0));
        try {
            array[2] = 5;
            Assert.fail();
        } catch (IndexOutOfBoundsException e) {
            Assert.assertEquals(8, array[1]);
        }
    }

    public void stores() {
        Object[] texts = new String[2];
        texts[0] = "a";
        texts[1] = null;
        try {
            texts[1] = Integer.valueOf(1);
            Assert.fail();
        } catch (ArrayStoreException e) {
            Assert.assertNull(texts[1]);
        }
        Object[] rows = new int[2][];
        rows[0] = new int[1];
        try {
            rows[1] = new long[1];
            Assert.fail();
        } catch (ArrayStoreException e) {
            Assert.assertNull(rows[1]);
        }
        Comparable[] any = new Integer[1];
        any[0] = Integer.valueOf(4);
        Assert.assertEquals(4, ((Integer) any[0]).intValue());
        Object[] rowsOfAny = new Object[1][1];
        rowsOfAny[0] = new String[1];
        Assert.assertTrue(rowsOfAny[0] instanceof String[]);
    }

    public void negative() {
        int minus = -1;
        int met = 0;
        try {
            int[] none = new int[minus];
        } catch (NegativeArraySizeException e) {
            met++;
        }
        try {
            String[] none = new String[minus];
        } catch (NegativeArraySizeException e) {
            met++;
        }
        try {
            int[][] none = new int[2][minus];
        } catch (NegativeArraySizeException e) {
            met++;
        }
        try {
            int[][] none = new int[0][minus];
        } catch (NegativeArraySizeException e) {
            met++;
        }
        Assert.assertEquals(4, met);
    }

    public void multi() {
        int[][][] cube = new int[2][3][];
        Assert.assertEquals(2, cube.length);
        Assert.assertEquals(3, cube[1].length);
        Assert.assertNull(cube[1][2]);
        Assert.assertNotSame(cube[0], cube[1]);
        long[][] longs = new long[2][2];
        longs[1][0] = 5;
        Assert.assertEquals(0L, longs[0][0]);
        Assert.assertEquals(5L, longs[1][0]);
        String[][] empty = new String[0][5];
        Assert.assertEquals(0, empty.length);
        Object whole = cube;
        Assert.assertTrue(whole instanceof int[][][]);
        Assert.assertTrue(whole instanceof Object[][]);
        Assert.assertFalse(whole instanceof int[][]);
    }

    public void copies() {
        int[] ints = {1, 2, 3};
        int[] copy = ints.clone();
        copy[0] = 9;
        Assert.assertEquals(1, ints[0]);
        Assert.assertEquals(9, copy[0]);
        Assert.assertEquals(3, copy.length);
        int[][] rows = {{1}, {2, 3}};
        int[][] shallow = rows.clone();
        Assert.assertNotSame(rows, shallow);
        Assert.assertSame(rows[1], shallow[1]);
        Object object = "abc".toCharArray().clone();
        Assert.assertTrue(object instanceof char[]);
        Assert.assertTrue(object instanceof Cloneable);
        Assert.assertFalse(object instanceof byte[]);
        Assert.assertFalse(ints.equals(copy));
        Assert.assertEquals(ints.hashCode(), ints.hashCode());
    }

    public void memory() {
        int[] many = new int[3000];
    }
}
