package more.org.junit;

import org.hamcrest.Matcher;
import org.junit.function.ThrowingRunnable;

/** Members of org.junit.Assert. */
public final class Assert {
    private Assert() {
    }

    private static AssertionError failure(String message, String what) {
        return new AssertionError(message == null || message.isEmpty() ? what : message + " " + what);
    }

    private static String differ(Object want, Object have) {
        return "expected:<" + want + "> but was:<" + have + ">";
    }

    public static void assertTrue(String message, boolean of) {
        if (!of) {
            throw new AssertionError(message);
        }
    }

    public static void assertFalse(String message, boolean of) {
        assertTrue(message, !of);
    }

    public static void assertEquals(Object want, Object have) {
        assertEquals(null, want, have);
    }

    public static void assertEquals(String message, Object want, Object have) {
        if (!(want == null ? have == null : want.equals(have))) {
            throw failure(message, differ(want, have));
        }
    }

    public static void assertEquals(String message, long want, long have) {
        if (want != have) {
            throw failure(message, differ(want, have));
        }
    }

    public static void assertEquals(Object[] want, Object[] have) {
        assertArrayEquals(want, have);
    }

    public static void assertEquals(String message, Object[] want, Object[] have) {
        assertArrayEquals(message, want, have);
    }

    public static void assertNotEquals(Object want, Object have) {
        assertNotEquals(null, want, have);
    }

    public static void assertNotEquals(String message, Object want, Object have) {
        if (want == null ? have == null : want.equals(have)) {
            throw failure(message, "Values should be different. Actual: " + have);
        }
    }

    public static void assertNotEquals(long want, long have) {
        assertNotEquals(null, want, have);
    }

    public static void assertNotEquals(String message, long want, long have) {
        if (want == have) {
            throw failure(message, "Values should be different. Actual: " + have);
        }
    }

    public static void assertNull(String message, Object of) {
        if (of != null) {
            throw failure(message, "expected null, but was:<" + of + ">");
        }
    }

    public static void assertNotNull(String message, Object of) {
        assertTrue(message, of != null);
    }

    public static void assertSame(String message, Object want, Object have) {
        if (want != have) {
            throw failure(message, "expected same:<" + want + "> was not:<" + have + ">");
        }
    }

    public static void assertNotSame(String message, Object want, Object have) {
        if (want == have) {
            throw failure(message, "expected not same");
        }
    }

    public static void assertArrayEquals(String message, byte[] want, byte[] have) {
        if (want == have) {
            return;
        }
        if (want == null || have == null || want.length != have.length) {
            throw failure(message, "arrays differ");
        }
        for (int at = 0; at < want.length; at++) {
            if (!(want[at] == have[at])) {
                throw failure(message, "arrays first differed at element [" + at + "]");
            }
        }
    }

    public static void assertArrayEquals(byte[] want, byte[] have) {
        assertArrayEquals(null, want, have);
    }

    public static void assertArrayEquals(String message, short[] want, short[] have) {
        if (want == have) {
            return;
        }
        if (want == null || have == null || want.length != have.length) {
            throw failure(message, "arrays differ");
        }
        for (int at = 0; at < want.length; at++) {
            if (!(want[at] == have[at])) {
                throw failure(message, "arrays first differed at element [" + at + "]");
            }
        }
    }

    public static void assertArrayEquals(short[] want, short[] have) {
        assertArrayEquals(null, want, have);
    }

    public static void assertArrayEquals(String message, int[] want, int[] have) {
        if (want == have) {
            return;
        }
        if (want == null || have == null || want.length != have.length) {
            throw failure(message, "arrays differ");
        }
        for (int at = 0; at < want.length; at++) {
            if (!(want[at] == have[at])) {
                throw failure(message, "arrays first differed at element [" + at + "]");
            }
        }
    }

    public static void assertArrayEquals(int[] want, int[] have) {
        assertArrayEquals(null, want, have);
    }

    public static void assertArrayEquals(String message, long[] want, long[] have) {
        if (want == have) {
            return;
        }
        if (want == null || have == null || want.length != have.length) {
            throw failure(message, "arrays differ");
        }
        for (int at = 0; at < want.length; at++) {
            if (!(want[at] == have[at])) {
                throw failure(message, "arrays first differed at element [" + at + "]");
            }
        }
    }

    public static void assertArrayEquals(long[] want, long[] have) {
        assertArrayEquals(null, want, have);
    }

    public static void assertArrayEquals(String message, char[] want, char[] have) {
        if (want == have) {
            return;
        }
        if (want == null || have == null || want.length != have.length) {
            throw failure(message, "arrays differ");
        }
        for (int at = 0; at < want.length; at++) {
            if (!(want[at] == have[at])) {
                throw failure(message, "arrays first differed at element [" + at + "]");
            }
        }
    }

    public static void assertArrayEquals(char[] want, char[] have) {
        assertArrayEquals(null, want, have);
    }

    public static void assertArrayEquals(String message, boolean[] want, boolean[] have) {
        if (want == have) {
            return;
        }
        if (want == null || have == null || want.length != have.length) {
            throw failure(message, "arrays differ");
        }
        for (int at = 0; at < want.length; at++) {
            if (!(want[at] == have[at])) {
                throw failure(message, "arrays first differed at element [" + at + "]");
            }
        }
    }

    public static void assertArrayEquals(boolean[] want, boolean[] have) {
        assertArrayEquals(null, want, have);
    }

    public static void assertArrayEquals(String message, Object[] want, Object[] have) {
        if (want == have) {
            return;
        }
        if (want == null || have == null || want.length != have.length) {
            throw failure(message, "arrays differ");
        }
        for (int at = 0; at < want.length; at++) {
            if (!(java.util.Arrays.deepEquals(new Object[] {want[at]}, new Object[] {have[at]}))) {
                throw failure(message, "arrays first differed at element [" + at + "]");
            }
        }
    }

    public static void assertArrayEquals(Object[] want, Object[] have) {
        assertArrayEquals(null, want, have);
    }

    public static void assertThat(Object of, Matcher by) {
        assertThat("", of, by);
    }

    public static void assertThat(String reason, Object of, Matcher by) {
        if (!by.matches(of)) {
            throw new AssertionError(reason);
        }
    }

    public static Throwable assertThrows(Class kind, ThrowingRunnable code) {
        return assertThrows(null, kind, code);
    }

    public static Throwable assertThrows(String message, Class kind, ThrowingRunnable code) {
        try {
            code.run();
        } catch (Throwable thrown) {
            if (kind.isInstance(thrown)) {
                return thrown;
            }
            throw failure(message, "unexpected exception type thrown");
        }
        throw failure(message, "expected " + kind.getName() + " to be thrown, but nothing was thrown");
    }
}
