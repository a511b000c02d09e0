package more.floats.org.junit.jupiter.api;

import java.util.function.Supplier;

/** Members of org.junit.jupiter.api.Assertions that have floats. */
public final class Assertions {
    private Assertions() {
    }

    private static AssertionError failure(String message, String what) {
        return new AssertionError(message == null || message.isEmpty() ? what : message + " ==> " + what);
    }

    private static String text(Supplier message) {
        return message == null ? null : (String) message.get();
    }

    private static boolean isOther(double want, double have) {
        return Double.compare(want, have) != 0;
    }

    private static boolean isOther(double want, double have, double delta) {
        if (!(delta > 0)) {
            throw new AssertionError("positive delta expected but was: <" + delta + ">");
        }
        return isOther(want, have) && !(Math.abs(want - have) <= delta);
    }

    private static boolean isOther(double[] want, double[] have, double delta, boolean hasDelta) {
        if (want == have) {
            return false;
        }
        if (want == null || have == null || want.length != have.length) {
            return true;
        }
        for (int at = 0; at < want.length; at++) {
            if (hasDelta ? isOther(want[at], have[at], delta) : isOther(want[at], have[at])) {
                return true;
            }
        }
        return false;
    }

    public static void assertEquals(double want, double have) {
        if (isOther(want, have)) {
            throw failure(null, "expected: <" + want + "> but was: <" + have + ">");
        }
    }

    public static void assertEquals(double want, double have, String message) {
        if (isOther(want, have)) {
            throw failure(message, "expected: <" + want + "> but was: <" + have + ">");
        }
    }

    public static void assertEquals(double want, double have, Supplier message) {
        if (isOther(want, have)) {
            throw failure(text(message), "expected: <" + want + "> but was: <" + have + ">");
        }
    }

    public static void assertEquals(double want, double have, double delta) {
        if (isOther(want, have, delta)) {
            throw failure(null, "expected: <" + want + "> but was: <" + have + ">");
        }
    }

    public static void assertEquals(double want, double have, double delta, String message) {
        if (isOther(want, have, delta)) {
            throw failure(message, "expected: <" + want + "> but was: <" + have + ">");
        }
    }

    public static void assertEquals(double want, double have, double delta, Supplier message) {
        if (isOther(want, have, delta)) {
            throw failure(text(message), "expected: <" + want + "> but was: <" + have + ">");
        }
    }

    public static void assertEquals(double want, Double have) {
        if (!((Object) want).equals(have)) {
            throw failure(null, "expected: <" + want + "> but was: <" + have + ">");
        }
    }

    public static void assertEquals(double want, Double have, String message) {
        if (!((Object) want).equals(have)) {
            throw failure(message, "expected: <" + want + "> but was: <" + have + ">");
        }
    }

    public static void assertEquals(Double want, double have) {
        if (!((Object) want).equals(have)) {
            throw failure(null, "expected: <" + want + "> but was: <" + have + ">");
        }
    }

    public static void assertEquals(Double want, double have, String message) {
        if (!((Object) want).equals(have)) {
            throw failure(message, "expected: <" + want + "> but was: <" + have + ">");
        }
    }

    public static void assertEquals(Double want, Double have) {
        if (!((Object) want).equals(have)) {
            throw failure(null, "expected: <" + want + "> but was: <" + have + ">");
        }
    }

    public static void assertEquals(Double want, Double have, String message) {
        if (!((Object) want).equals(have)) {
            throw failure(message, "expected: <" + want + "> but was: <" + have + ">");
        }
    }

    public static void assertNotEquals(double want, double have) {
        if (!isOther(want, have)) {
            throw failure(null, "expected: not equal but was: <" + have + ">");
        }
    }

    public static void assertNotEquals(double want, double have, String message) {
        if (!isOther(want, have)) {
            throw failure(message, "expected: not equal but was: <" + have + ">");
        }
    }

    public static void assertNotEquals(double want, double have, Supplier message) {
        if (!isOther(want, have)) {
            throw failure(text(message), "expected: not equal but was: <" + have + ">");
        }
    }

    public static void assertNotEquals(double want, double have, double delta) {
        if (!isOther(want, have, delta)) {
            throw failure(null, "expected: not equal but was: <" + have + ">");
        }
    }

    public static void assertNotEquals(double want, double have, double delta, String message) {
        if (!isOther(want, have, delta)) {
            throw failure(message, "expected: not equal but was: <" + have + ">");
        }
    }

    public static void assertNotEquals(double want, double have, double delta, Supplier message) {
        if (!isOther(want, have, delta)) {
            throw failure(text(message), "expected: not equal but was: <" + have + ">");
        }
    }

    public static void assertNotEquals(double want, Double have) {
        if (!!((Object) want).equals(have)) {
            throw failure(null, "expected: not equal but was: <" + have + ">");
        }
    }

    public static void assertNotEquals(double want, Double have, String message) {
        if (!!((Object) want).equals(have)) {
            throw failure(message, "expected: not equal but was: <" + have + ">");
        }
    }

    public static void assertNotEquals(Double want, double have) {
        if (!!((Object) want).equals(have)) {
            throw failure(null, "expected: not equal but was: <" + have + ">");
        }
    }

    public static void assertNotEquals(Double want, double have, String message) {
        if (!!((Object) want).equals(have)) {
            throw failure(message, "expected: not equal but was: <" + have + ">");
        }
    }

    public static void assertNotEquals(Double want, Double have) {
        if (!!((Object) want).equals(have)) {
            throw failure(null, "expected: not equal but was: <" + have + ">");
        }
    }

    public static void assertNotEquals(Double want, Double have, String message) {
        if (!!((Object) want).equals(have)) {
            throw failure(message, "expected: not equal but was: <" + have + ">");
        }
    }

    public static void assertArrayEquals(double[] want, double[] have) {
        if (isOther(want, have, 0, false)) {
            throw failure(null, "array contents differ");
        }
    }

    public static void assertArrayEquals(double[] want, double[] have, String message) {
        if (isOther(want, have, 0, false)) {
            throw failure(message, "array contents differ");
        }
    }

    public static void assertArrayEquals(double[] want, double[] have, Supplier message) {
        if (isOther(want, have, 0, false)) {
            throw failure(text(message), "array contents differ");
        }
    }

    public static void assertArrayEquals(double[] want, double[] have, double delta) {
        if (isOther(want, have, delta, true)) {
            throw failure(null, "array contents differ");
        }
    }

    public static void assertArrayEquals(double[] want, double[] have, double delta, String message) {
        if (isOther(want, have, delta, true)) {
            throw failure(message, "array contents differ");
        }
    }

    public static void assertArrayEquals(double[] want, double[] have, double delta, Supplier message) {
        if (isOther(want, have, delta, true)) {
            throw failure(text(message), "array contents differ");
        }
    }

    private static boolean isOther(float want, float have) {
        return Float.compare(want, have) != 0;
    }

    private static boolean isOther(float want, float have, float delta) {
        if (!(delta > 0)) {
            throw new AssertionError("positive delta expected but was: <" + delta + ">");
        }
        return isOther(want, have) && !(Math.abs(want - have) <= delta);
    }

    private static boolean isOther(float[] want, float[] have, float delta, boolean hasDelta) {
        if (want == have) {
            return false;
        }
        if (want == null || have == null || want.length != have.length) {
            return true;
        }
        for (int at = 0; at < want.length; at++) {
            if (hasDelta ? isOther(want[at], have[at], delta) : isOther(want[at], have[at])) {
                return true;
            }
        }
        return false;
    }

    public static void assertEquals(float want, float have) {
        if (isOther(want, have)) {
            throw failure(null, "expected: <" + want + "> but was: <" + have + ">");
        }
    }

    public static void assertEquals(float want, float have, String message) {
        if (isOther(want, have)) {
            throw failure(message, "expected: <" + want + "> but was: <" + have + ">");
        }
    }

    public static void assertEquals(float want, float have, Supplier message) {
        if (isOther(want, have)) {
            throw failure(text(message), "expected: <" + want + "> but was: <" + have + ">");
        }
    }

    public static void assertEquals(float want, float have, float delta) {
        if (isOther(want, have, delta)) {
            throw failure(null, "expected: <" + want + "> but was: <" + have + ">");
        }
    }

    public static void assertEquals(float want, float have, float delta, String message) {
        if (isOther(want, have, delta)) {
            throw failure(message, "expected: <" + want + "> but was: <" + have + ">");
        }
    }

    public static void assertEquals(float want, float have, float delta, Supplier message) {
        if (isOther(want, have, delta)) {
            throw failure(text(message), "expected: <" + want + "> but was: <" + have + ">");
        }
    }

    public static void assertEquals(float want, Float have) {
        if (!((Object) want).equals(have)) {
            throw failure(null, "expected: <" + want + "> but was: <" + have + ">");
        }
    }

    public static void assertEquals(float want, Float have, String message) {
        if (!((Object) want).equals(have)) {
            throw failure(message, "expected: <" + want + "> but was: <" + have + ">");
        }
    }

    public static void assertEquals(Float want, float have) {
        if (!((Object) want).equals(have)) {
            throw failure(null, "expected: <" + want + "> but was: <" + have + ">");
        }
    }

    public static void assertEquals(Float want, float have, String message) {
        if (!((Object) want).equals(have)) {
            throw failure(message, "expected: <" + want + "> but was: <" + have + ">");
        }
    }

    public static void assertEquals(Float want, Float have) {
        if (!((Object) want).equals(have)) {
            throw failure(null, "expected: <" + want + "> but was: <" + have + ">");
        }
    }

    public static void assertEquals(Float want, Float have, String message) {
        if (!((Object) want).equals(have)) {
            throw failure(message, "expected: <" + want + "> but was: <" + have + ">");
        }
    }

    public static void assertNotEquals(float want, float have) {
        if (!isOther(want, have)) {
            throw failure(null, "expected: not equal but was: <" + have + ">");
        }
    }

    public static void assertNotEquals(float want, float have, String message) {
        if (!isOther(want, have)) {
            throw failure(message, "expected: not equal but was: <" + have + ">");
        }
    }

    public static void assertNotEquals(float want, float have, Supplier message) {
        if (!isOther(want, have)) {
            throw failure(text(message), "expected: not equal but was: <" + have + ">");
        }
    }

    public static void assertNotEquals(float want, float have, float delta) {
        if (!isOther(want, have, delta)) {
            throw failure(null, "expected: not equal but was: <" + have + ">");
        }
    }

    public static void assertNotEquals(float want, float have, float delta, String message) {
        if (!isOther(want, have, delta)) {
            throw failure(message, "expected: not equal but was: <" + have + ">");
        }
    }

    public static void assertNotEquals(float want, float have, float delta, Supplier message) {
        if (!isOther(want, have, delta)) {
            throw failure(text(message), "expected: not equal but was: <" + have + ">");
        }
    }

    public static void assertNotEquals(float want, Float have) {
        if (!!((Object) want).equals(have)) {
            throw failure(null, "expected: not equal but was: <" + have + ">");
        }
    }

    public static void assertNotEquals(float want, Float have, String message) {
        if (!!((Object) want).equals(have)) {
            throw failure(message, "expected: not equal but was: <" + have + ">");
        }
    }

    public static void assertNotEquals(Float want, float have) {
        if (!!((Object) want).equals(have)) {
            throw failure(null, "expected: not equal but was: <" + have + ">");
        }
    }

    public static void assertNotEquals(Float want, float have, String message) {
        if (!!((Object) want).equals(have)) {
            throw failure(message, "expected: not equal but was: <" + have + ">");
        }
    }

    public static void assertNotEquals(Float want, Float have) {
        if (!!((Object) want).equals(have)) {
            throw failure(null, "expected: not equal but was: <" + have + ">");
        }
    }

    public static void assertNotEquals(Float want, Float have, String message) {
        if (!!((Object) want).equals(have)) {
            throw failure(message, "expected: not equal but was: <" + have + ">");
        }
    }

    public static void assertArrayEquals(float[] want, float[] have) {
        if (isOther(want, have, 0, false)) {
            throw failure(null, "array contents differ");
        }
    }

    public static void assertArrayEquals(float[] want, float[] have, String message) {
        if (isOther(want, have, 0, false)) {
            throw failure(message, "array contents differ");
        }
    }

    public static void assertArrayEquals(float[] want, float[] have, Supplier message) {
        if (isOther(want, have, 0, false)) {
            throw failure(text(message), "array contents differ");
        }
    }

    public static void assertArrayEquals(float[] want, float[] have, float delta) {
        if (isOther(want, have, delta, true)) {
            throw failure(null, "array contents differ");
        }
    }

    public static void assertArrayEquals(float[] want, float[] have, float delta, String message) {
        if (isOther(want, have, delta, true)) {
            throw failure(message, "array contents differ");
        }
    }

    public static void assertArrayEquals(float[] want, float[] have, float delta, Supplier message) {
        if (isOther(want, have, delta, true)) {
            throw failure(text(message), "array contents differ");
        }
    }
}
