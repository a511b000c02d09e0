import org.junit.Assert;

/** Exceptions, handlers, and errors of linking and starting classes. */
public class Throws {
    static String trace = "";

    static class Own extends Exception {
        final int code;

        Own(int code, Throwable cause) {
            super("own " + code, cause);
            this.code = code;
        }
    }

    static class Narrow extends Own {
        Narrow() {
            super(9, null);
        }
    }

    static class Broken {
        static int value = 5 / zero();

        static int zero() {
            return 0;
        }
    }

    static class Below extends Broken {
        static int other = 1;
    }

    static class Thrower {
        static {
            trace += "t";
            if (true) {
                throw new StackOverflowError();
            }
        }

        static void call() {
        }
    }

    static int returns(int way) {
        try {
            if (way == 0) {
                return 1;
            }
            if (way == 1) {
                throw new IllegalStateException("one");
            }
            trace += "b";
        } catch (IllegalStateException e) {
            trace += "c";
            return 2;
        } finally {
            trace += "f";
            if (way == 3) {
                return 4;
            }
        }
        return 3;
    }

    static void nested(int way) throws Own {
        try {
            try {
                if (way == 0) {
                    throw new Own(5, null);
                }
                if (way == 1) {
                    throw new Narrow();
                }
                throw new IllegalArgumentException("way");
            } catch (Narrow e) {
                trace += "n";
                throw e;
            } catch (Own e) {
                trace += "o";
                throw new Own(e.code + 1, e);
            } finally {
                trace += "f";
            }
        } catch (IllegalArgumentException e) {
            trace += "i";
            throw new Own(e.getMessage().length(), e);
        }
    }

    public void finals() {
        Assert.assertEquals(1, returns(0));
        Assert.assertEquals(2, returns(1));
        Assert.assertEquals(3, returns(2));
        Assert.assertEquals(4, returns(3));
        Assert.assertEquals("fcfbfbf", trace);
    }

    public void rethrows() {
        int sum = 0;
        for (int way = 0; way < 3; way++) {
            try {
                nested(way);
                Assert.fail();
            } catch (Own e) {
                sum = sum * 100 + e.code;
                if (way == 0) {
                    Assert.assertEquals("own 6", e.getMessage());
                    Assert.assertEquals("own 5", e.getCause().getMessage());
                }
                if (way == 2) {
                    Assert.assertTrue(e.getCause() instanceof IllegalArgumentException);
                }
            }
        }
        Assert.assertEquals(60903, sum);
        Assert.assertEquals("ofnffi", trace);
    }

    public void starting() {
        int met = 0;
        try {
            met = Broken.value;
        } catch (ExceptionInInitializerError e) {
            met += 1;
        }
        try {
            met = Broken.zero();
        } catch (NoClassDefFoundError e) {
            met += 10;
        }
        try {
            new Broken();
        } catch (NoClassDefFoundError e) {
            met += 100;
        }
        try {
            met = Below.other;
        } catch (NoClassDefFoundError e) {
            met += 1000;
        }
        Assert.assertEquals(1111, met);
    }

    public void errorInStart() {
        int met = 0;
        try {
            Thrower.call();
        } catch (StackOverflowError e) {
            met += 1;
        }
        try {
            Thrower.call();
        } catch (NoClassDefFoundError e) {
            met += 10;
        }
        Assert.assertEquals(11, met);
        Assert.assertEquals("t", trace);
    }

    public void absent() {
        int met = 0;
        try {
            new Absent();
        } catch (NoClassDefFoundError e) {
            met += 1;
        }
        try {
            Absent.call();
        } catch (NoClassDefFoundError e) {
            met += 10;
        }
        try {
            met = Absent.field;
        } catch (NoClassDefFoundError e) {
            met += 100;
        }
        try {
            Object some = "a";
            boolean is = some instanceof Absent;
        } catch (NoClassDefFoundError e) {
            met += 1000;
        }
        try {
            Object[] some = new Absent[1];
        } catch (NoClassDefFoundError e) {
            met += 10000;
        }
        Object none = null;
        Absent cast = (Absent) none;
        if (!(none instanceof Absent)) {
            met += 100000;
        }
        Assert.assertEquals(111111, met);
    }

    public void changed() {
        int met = 0;
        try {
            met = Changed.gone;
        } catch (NoSuchFieldError e) {
            met += 1;
        }
        try {
            Changed.lost();
        } catch (NoSuchMethodError e) {
            met += 10;
        }
        try {
            Changed.turned();
        } catch (IncompatibleClassChangeError e) {
            met += 100;
        }
        try {
            new Changed().fixed();
        } catch (IncompatibleClassChangeError e) {
            met += 1000;
        }
        try {
            met = new Changed().field;
        } catch (IncompatibleClassChangeError e) {
            met += 10000;
        }
        try {
            new Emptied();
        } catch (InstantiationError e) {
            met += 100000;
        }
        Assert.assertEquals(111111, met);
    }

    public void abstracts() {
        Promise promise = new Kept();
        int met = promise.kept();
        try {
            met = promise.broken();
        } catch (AbstractMethodError e) {
            met += 10;
        }
        First first = new Two();
        try {
            met = first.name();
        } catch (IncompatibleClassChangeError e) {
            met += 100;
        }
        try {
            met = new Two().name();
        } catch (IncompatibleClassChangeError e) {
            met += 1000;
        }
        Assert.assertEquals(1111, met);
    }

    int deep(int n) {
        return n == 0 ? 0 : 1 + deep(n - 1);
    }

    int depth;

    void deeper() {
        depth++;
        deeper();
    }

    public void overflow() {
        Assert.assertEquals(10, deep(10));
        try {
            deeper();
            Assert.fail();
        } catch (StackOverflowError e) {
            Assert.assertTrue(depth > 10);
        }
    }

    public void expected() {
        int[] none = new int[1];
        none[1] = 5;
    }

    public void leaves() {
        throw new IllegalStateException("leaves");
    }

    public void wrong() {
        Assert.assertEquals(1, 2);
    }
}
