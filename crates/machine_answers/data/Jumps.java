import org.junit.Assert;

/** Jumps of ints and references, loops and switches. */
public class Jumps {
    static int compares(int a, int b) {
        int bits = 0;
        if (a == b) {
            bits |= 1;
        }
        if (a != b) {
            bits |= 2;
        }
        if (a < b) {
            bits |= 4;
        }
        if (a <= b) {
            bits |= 8;
        }
        if (a > b) {
            bits |= 16;
        }
        if (a >= b) {
            bits |= 32;
        }
        return bits;
    }

    static int zeros(int a) {
        int bits = 0;
        if (a == 0) {
            bits |= 1;
        }
        if (a != 0) {
            bits |= 2;
        }
        if (a < 0) {
            bits |= 4;
        }
        if (a <= 0) {
            bits |= 8;
        }
        if (a > 0) {
            bits |= 16;
        }
        if (a >= 0) {
            bits |= 32;
        }
        return bits;
    }

    static int same(Object a, Object b) {
        int bits = 0;
        if (a == b) {
            bits |= 1;
        }
        if (a != b) {
            bits |= 2;
        }
        if (a == null) {
            bits |= 4;
        }
        if (b != null) {
            bits |= 8;
        }
        return bits;
    }

    static int dense(int key) {
        switch (key) {
            case -1:
                return 10;
            case 0:
                return 20;
            case 1:
            case 2:
                return 30;
            case 4:
                return 40;
            default:
                return 50;
        }
    }

    static int sparse(int key) {
        int result = 0;
        switch (key) {
            case Integer.MIN_VALUE:
                result += 1;
            case 7:
                result += 2;
                break;
            case 1000000:
                result += 4;
                break;
            case Integer.MAX_VALUE:
                result += 8;
        }
        return result;
    }

    public void ints() {
        Assert.assertEquals(1 + 8 + 32, compares(5, 5));
        Assert.assertEquals(2 + 4 + 8, compares(Integer.MIN_VALUE, Integer.MAX_VALUE));
        Assert.assertEquals(2 + 16 + 32, compares(0, -1));
        Assert.assertEquals(1 + 8 + 32, zeros(0));
        Assert.assertEquals(2 + 4 + 8, zeros(Integer.MIN_VALUE));
        Assert.assertEquals(2 + 16 + 32, zeros(1));
    }

    public void references() {
        Object one = new Object();
        Object two = new Object();
        Assert.assertEquals(2 + 8, same(one, two));
        Assert.assertEquals(1 + 8, same(one, one));
        Assert.assertEquals(2 + 4 + 8, same(null, one));
        Assert.assertEquals(1 + 4, same(null, null));
        Assert.assertEquals(2, same(one, null));
    }

    public void switches() {
        Assert.assertEquals(10, dense(-1));
        Assert.assertEquals(20, dense(0));
        Assert.assertEquals(30, dense(2));
        Assert.assertEquals(40, dense(4));
        Assert.assertEquals(50, dense(3));
        Assert.assertEquals(50, dense(5));
        Assert.assertEquals(50, dense(-2));
        Assert.assertEquals(50, dense(Integer.MIN_VALUE));
        Assert.assertEquals(50, dense(Integer.MAX_VALUE));
        Assert.assertEquals(3, sparse(Integer.MIN_VALUE));
        Assert.assertEquals(2, sparse(7));
        Assert.assertEquals(4, sparse(1000000));
        Assert.assertEquals(8, sparse(Integer.MAX_VALUE));
        Assert.assertEquals(0, sparse(8));
    }

    public void textSwitch() {
        String word = new StringBuilder("A").append('a').toString();
        int found = 0;
        switch (word) {
            case "BB":
                found = 1;
                break;
            case "Aa":
                found = 2;
                break;
            default:
                found = 3;
        }
        Assert.assertEquals(2, found);
    }

    public void loops() {
        int sum = 0;
        outer:
        for (int i = 0; i < 10; i++) {
            int j = i;
            while (true) {
                if (j > 12) {
                    continue outer;
                }
                if (i == 8) {
                    break outer;
                }
                sum += j;
                j += 3;
            }
        }
        do {
            sum--;
        } while (sum % 7 != 0);
        Assert.assertEquals(196, sum);
    }

    public void forever() {
        while (true) {
        }
    }
}
