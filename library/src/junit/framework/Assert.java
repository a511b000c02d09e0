package junit.framework;

/** The assertions of JUnit 3. */
public class Assert {
    protected Assert() {
    }

    public static void fail(String message) {
        throw new AssertionFailedError(message);
    }

    public static void fail() {
        fail(null);
    }

    private static void differ(String message, String what) {
        fail(message == null ? what : message + " " + what);
    }

    public static void assertTrue(String message, boolean of) {
        if (!of) {
            fail(message);
        }
    }

    public static void assertTrue(boolean of) {
        assertTrue(null, of);
    }

    public static void assertFalse(String message, boolean of) {
        assertTrue(message, !of);
    }

    public static void assertFalse(boolean of) {
        assertTrue(null, !of);
    }

    public static void assertEquals(String message, Object want, Object have) {
        if (!(want == null ? have == null : want.equals(have))) {
            differ(message, "expected:<" + want + "> but was:<" + have + ">");
        }
    }

    public static void assertEquals(Object want, Object have) {
        assertEquals(null, want, have);
    }

    public static void assertEquals(String message, String want, String have) {
        assertEquals(message, (Object) want, (Object) have);
    }

    public static void assertEquals(String want, String have) {
        assertEquals(null, (Object) want, (Object) have);
    }

    public static void assertEquals(String message, long want, long have) {
        if (want != have) {
            differ(message, "expected:<" + want + "> but was:<" + have + ">");
        }
    }

    public static void assertEquals(long want, long have) {
        assertEquals(null, want, have);
    }

    public static void assertEquals(String message, int want, int have) {
        if (want != have) {
            differ(message, "expected:<" + want + "> but was:<" + have + ">");
        }
    }

    public static void assertEquals(int want, int have) {
        assertEquals(null, want, have);
    }

    public static void assertEquals(String message, short want, short have) {
        if (want != have) {
            differ(message, "expected:<" + want + "> but was:<" + have + ">");
        }
    }

    public static void assertEquals(short want, short have) {
        assertEquals(null, want, have);
    }

    public static void assertEquals(String message, byte want, byte have) {
        if (want != have) {
            differ(message, "expected:<" + want + "> but was:<" + have + ">");
        }
    }

    public static void assertEquals(byte want, byte have) {
        assertEquals(null, want, have);
    }

    public static void assertEquals(String message, char want, char have) {
        if (want != have) {
            differ(message, "expected:<" + want + "> but was:<" + have + ">");
        }
    }

    public static void assertEquals(char want, char have) {
        assertEquals(null, want, have);
    }

    public static void assertEquals(String message, boolean want, boolean have) {
        if (want != have) {
            differ(message, "expected:<" + want + "> but was:<" + have + ">");
        }
    }

    public static void assertEquals(boolean want, boolean have) {
        assertEquals(null, want, have);
    }

    public static void assertNull(String message, Object of) {
        assertTrue(message, of == null);
    }

    public static void assertNull(Object of) {
        assertNull(null, of);
    }

    public static void assertNotNull(String message, Object of) {
        assertTrue(message, of != null);
    }

    public static void assertNotNull(Object of) {
        assertNotNull(null, of);
    }

    public static void assertSame(String message, Object want, Object have) {
        assertTrue(message, want == have);
    }

    public static void assertSame(Object want, Object have) {
        assertSame(null, want, have);
    }

    public static void assertNotSame(String message, Object want, Object have) {
        assertTrue(message, want != have);
    }

    public static void assertNotSame(Object want, Object have) {
        assertNotSame(null, want, have);
    }
}
