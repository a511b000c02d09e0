package more.floats.org.junit;

/** Members of org.junit.Assert that have floats. */
public final class Assert {
    private Assert() {
    }

    private static AssertionError failure(String message, String what) {
        return new AssertionError(message == null || message.isEmpty() ? what : message + " " + what);
    }

    public static void assertEquals(double want, double have) {
        throw new AssertionError("Use assertEquals(expected, actual, delta) to compare floating-point numbers");
    }

    public static void assertEquals(String message, double want, double have) {
        throw failure(message, "Use assertEquals(expected, actual, delta) to compare floating-point numbers");
    }

    private static boolean isOther(double want, double have, double delta) {
        return Double.compare(want, have) != 0 && !(Math.abs(want - have) <= delta);
    }

    public static void assertEquals(double want, double have, double delta) {
        assertEquals(null, want, have, delta);
    }

    public static void assertEquals(String message, double want, double have, double delta) {
        if (isOther(want, have, delta)) {
            throw failure(message, "expected:<" + want + "> but was:<" + have + ">");
        }
    }

    public static void assertNotEquals(double want, double have, double delta) {
        assertNotEquals(null, want, have, delta);
    }

    public static void assertNotEquals(String message, double want, double have, double delta) {
        if (!isOther(want, have, delta)) {
            throw failure(message, "Values should be different. Actual: " + have);
        }
    }

    public static void assertArrayEquals(double[] want, double[] have, double delta) {
        assertArrayEquals(null, want, have, delta);
    }

    public static void assertArrayEquals(String message, double[] want, double[] have, double delta) {
        if (want == have) {
            return;
        }
        if (want == null || have == null || want.length != have.length) {
            throw failure(message, "arrays differ");
        }
        for (int at = 0; at < want.length; at++) {
            if (isOther(want[at], have[at], delta)) {
                throw failure(message, "arrays first differed at element [" + at + "]; expected:<" + want[at] + "> but was:<" + have[at] + ">");
            }
        }
    }

    private static boolean isOther(float want, float have, float delta) {
        return Float.compare(want, have) != 0 && !(Math.abs(want - have) <= delta);
    }

    public static void assertEquals(float want, float have, float delta) {
        assertEquals(null, want, have, delta);
    }

    public static void assertEquals(String message, float want, float have, float delta) {
        if (isOther(want, have, delta)) {
            throw failure(message, "expected:<" + want + "> but was:<" + have + ">");
        }
    }

    public static void assertNotEquals(float want, float have, float delta) {
        assertNotEquals(null, want, have, delta);
    }

    public static void assertNotEquals(String message, float want, float have, float delta) {
        if (!isOther(want, have, delta)) {
            throw failure(message, "Values should be different. Actual: " + have);
        }
    }

    public static void assertArrayEquals(float[] want, float[] have, float delta) {
        assertArrayEquals(null, want, have, delta);
    }

    public static void assertArrayEquals(String message, float[] want, float[] have, float delta) {
        if (want == have) {
            return;
        }
        if (want == null || have == null || want.length != have.length) {
            throw failure(message, "arrays differ");
        }
        for (int at = 0; at < want.length; at++) {
            if (isOther(want[at], have[at], delta)) {
                throw failure(message, "arrays first differed at element [" + at + "]; expected:<" + want[at] + "> but was:<" + have[at] + ">");
            }
        }
    }
}
