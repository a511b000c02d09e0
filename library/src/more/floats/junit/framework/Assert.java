package more.floats.junit.framework;

/** Members of junit.framework.Assert that have floats. */
public final class Assert {
    private Assert() {
    }

    public static void assertEquals(double want, double have, double delta) {
        assertEquals(null, want, have, delta);
    }

    public static void assertEquals(String message, double want, double have, double delta) {
        if (Double.compare(want, have) != 0 && !(Math.abs(want - have) <= delta)) {
            throw new junit.framework.AssertionFailedError((message == null ? "" : message + " ") + "expected:<" + want + "> but was:<" + have + ">");
        }
    }

    public static void assertEquals(float want, float have, float delta) {
        assertEquals(null, want, have, delta);
    }

    public static void assertEquals(String message, float want, float have, float delta) {
        if (Float.compare(want, have) != 0 && !(Math.abs(want - have) <= delta)) {
            throw new junit.framework.AssertionFailedError((message == null ? "" : message + " ") + "expected:<" + want + "> but was:<" + have + ">");
        }
    }
}
