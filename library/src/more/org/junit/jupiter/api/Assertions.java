package more.org.junit.jupiter.api;

import java.util.Iterator;
import java.util.function.Supplier;
import org.junit.jupiter.api.function.Executable;
import org.junit.jupiter.api.function.ThrowingSupplier;

/** Members of org.junit.jupiter.api.Assertions. */
public final class Assertions {
    private Assertions() {
    }

    private static AssertionError failure(String message, String what) {
        return new AssertionError(message == null || message.isEmpty() ? what : message + " ==> " + what);
    }

    private static String text(Supplier message) {
        return message == null ? null : (String) message.get();
    }

    private static String differ(Object want, Object have) {
        return "expected: <" + want + "> but was: <" + have + ">";
    }

    private static boolean isSame(Object want, Object have) {
        return want == null ? have == null : want.equals(have);
    }

    public static Object fail() {
        throw new AssertionError();
    }

    public static Object fail(String message) {
        throw new AssertionError(message);
    }

    public static Object fail(String message, Throwable cause) {
        throw new AssertionError(message, cause);
    }

    public static Object fail(Throwable cause) {
        throw new AssertionError(null, cause);
    }

    public static Object fail(Supplier message) {
        throw new AssertionError(text(message));
    }

    public static void assertTrue(boolean of, String message) {
        if (!(of)) {
            throw failure(message, "expected: <true> but was: <false>");
        }
    }

    public static void assertTrue(boolean of, Supplier message) {
        if (!(of)) {
            throw failure(text(message), "expected: <true> but was: <false>");
        }
    }

    public static void assertFalse(boolean of, String message) {
        if (!(!of)) {
            throw failure(message, "expected: <false> but was: <true>");
        }
    }

    public static void assertFalse(boolean of, Supplier message) {
        if (!(!of)) {
            throw failure(text(message), "expected: <false> but was: <true>");
        }
    }

    public static void assertNull(Object of, String message) {
        if (!(of == null)) {
            throw failure(message, "expected: <null>");
        }
    }

    public static void assertNull(Object of, Supplier message) {
        if (!(of == null)) {
            throw failure(text(message), "expected: <null>");
        }
    }

    public static void assertNotNull(Object of, String message) {
        if (!(of != null)) {
            throw failure(message, "expected: not <null>");
        }
    }

    public static void assertNotNull(Object of, Supplier message) {
        if (!(of != null)) {
            throw failure(text(message), "expected: not <null>");
        }
    }

    public static void assertSame(Object want, Object have, String message) {
        if (!(want == have)) {
            throw failure(message, "expected: the same");
        }
    }

    public static void assertSame(Object want, Object have, Supplier message) {
        if (!(want == have)) {
            throw failure(text(message), "expected: the same");
        }
    }

    public static void assertNotSame(Object want, Object have, String message) {
        if (!(want != have)) {
            throw failure(message, "expected: not the same");
        }
    }

    public static void assertNotSame(Object want, Object have, Supplier message) {
        if (!(want != have)) {
            throw failure(text(message), "expected: not the same");
        }
    }

    public static void assertNotEquals(Object want, Object have, String message) {
        if (!(!isSame(want, have))) {
            throw failure(message, "expected: not equal");
        }
    }

    public static void assertNotEquals(Object want, Object have, Supplier message) {
        if (!(!isSame(want, have))) {
            throw failure(text(message), "expected: not equal");
        }
    }

    public static void assertEquals(Object want, Object have) {
        assertEquals(want, have, (String) null);
    }

    public static void assertEquals(Object want, Object have, String message) {
        if (!(isSame(want, have))) {
            throw failure(message, differ(want, have));
        }
    }

    public static void assertEquals(Object want, Object have, Supplier message) {
        if (!(isSame(want, have))) {
            throw failure(text(message), differ(want, have));
        }
    }

    public static void assertEquals(byte want, byte have) {
        assertEquals(want, have, (String) null);
    }

    public static void assertEquals(byte want, byte have, String message) {
        if (!(want == have)) {
            throw failure(message, differ(want, have));
        }
    }

    public static void assertEquals(byte want, byte have, Supplier message) {
        if (!(want == have)) {
            throw failure(text(message), differ(want, have));
        }
    }

    public static void assertEquals(short want, short have) {
        assertEquals(want, have, (String) null);
    }

    public static void assertEquals(short want, short have, String message) {
        if (!(want == have)) {
            throw failure(message, differ(want, have));
        }
    }

    public static void assertEquals(short want, short have, Supplier message) {
        if (!(want == have)) {
            throw failure(text(message), differ(want, have));
        }
    }

    public static void assertEquals(int want, int have, String message) {
        if (!(want == have)) {
            throw failure(message, differ(want, have));
        }
    }

    public static void assertEquals(int want, int have, Supplier message) {
        if (!(want == have)) {
            throw failure(text(message), differ(want, have));
        }
    }

    public static void assertEquals(long want, long have, String message) {
        if (!(want == have)) {
            throw failure(message, differ(want, have));
        }
    }

    public static void assertEquals(long want, long have, Supplier message) {
        if (!(want == have)) {
            throw failure(text(message), differ(want, have));
        }
    }

    public static void assertEquals(char want, char have) {
        assertEquals(want, have, (String) null);
    }

    public static void assertEquals(char want, char have, String message) {
        if (!(want == have)) {
            throw failure(message, differ(want, have));
        }
    }

    public static void assertEquals(char want, char have, Supplier message) {
        if (!(want == have)) {
            throw failure(text(message), differ(want, have));
        }
    }

    public static void assertEquals(int want, Integer have) {
        assertEquals((Object) want, (Object) have, (String) null);
    }

    public static void assertEquals(int want, Integer have, String message) {
        assertEquals((Object) want, (Object) have, message);
    }

    public static void assertEquals(Integer want, int have) {
        assertEquals((Object) want, (Object) have, (String) null);
    }

    public static void assertEquals(Integer want, int have, String message) {
        assertEquals((Object) want, (Object) have, message);
    }

    public static void assertEquals(Integer want, Integer have) {
        assertEquals((Object) want, (Object) have, (String) null);
    }

    public static void assertEquals(Integer want, Integer have, String message) {
        assertEquals((Object) want, (Object) have, message);
    }

    public static void assertEquals(long want, Long have) {
        assertEquals((Object) want, (Object) have, (String) null);
    }

    public static void assertEquals(long want, Long have, String message) {
        assertEquals((Object) want, (Object) have, message);
    }

    public static void assertEquals(Long want, long have) {
        assertEquals((Object) want, (Object) have, (String) null);
    }

    public static void assertEquals(Long want, long have, String message) {
        assertEquals((Object) want, (Object) have, message);
    }

    public static void assertEquals(Long want, Long have) {
        assertEquals((Object) want, (Object) have, (String) null);
    }

    public static void assertEquals(Long want, Long have, String message) {
        assertEquals((Object) want, (Object) have, message);
    }

    public static void assertEquals(short want, Short have) {
        assertEquals((Object) want, (Object) have, (String) null);
    }

    public static void assertEquals(short want, Short have, String message) {
        assertEquals((Object) want, (Object) have, message);
    }

    public static void assertEquals(Short want, short have) {
        assertEquals((Object) want, (Object) have, (String) null);
    }

    public static void assertEquals(Short want, short have, String message) {
        assertEquals((Object) want, (Object) have, message);
    }

    public static void assertEquals(Short want, Short have) {
        assertEquals((Object) want, (Object) have, (String) null);
    }

    public static void assertEquals(Short want, Short have, String message) {
        assertEquals((Object) want, (Object) have, message);
    }

    public static void assertEquals(byte want, Byte have) {
        assertEquals((Object) want, (Object) have, (String) null);
    }

    public static void assertEquals(byte want, Byte have, String message) {
        assertEquals((Object) want, (Object) have, message);
    }

    public static void assertEquals(Byte want, byte have) {
        assertEquals((Object) want, (Object) have, (String) null);
    }

    public static void assertEquals(Byte want, byte have, String message) {
        assertEquals((Object) want, (Object) have, message);
    }

    public static void assertEquals(Byte want, Byte have) {
        assertEquals((Object) want, (Object) have, (String) null);
    }

    public static void assertEquals(Byte want, Byte have, String message) {
        assertEquals((Object) want, (Object) have, message);
    }

    public static void assertEquals(char want, Character have) {
        assertEquals((Object) want, (Object) have, (String) null);
    }

    public static void assertEquals(char want, Character have, String message) {
        assertEquals((Object) want, (Object) have, message);
    }

    public static void assertEquals(Character want, char have) {
        assertEquals((Object) want, (Object) have, (String) null);
    }

    public static void assertEquals(Character want, char have, String message) {
        assertEquals((Object) want, (Object) have, message);
    }

    public static void assertEquals(Character want, Character have) {
        assertEquals((Object) want, (Object) have, (String) null);
    }

    public static void assertEquals(Character want, Character have, String message) {
        assertEquals((Object) want, (Object) have, message);
    }

    public static void assertNotEquals(byte want, byte have) {
        if (want == have) {
            throw failure(null, "expected: not equal");
        }
    }

    public static void assertNotEquals(byte want, byte have, String message) {
        if (want == have) {
            throw failure(message, "expected: not equal");
        }
    }

    public static void assertNotEquals(short want, short have) {
        if (want == have) {
            throw failure(null, "expected: not equal");
        }
    }

    public static void assertNotEquals(short want, short have, String message) {
        if (want == have) {
            throw failure(message, "expected: not equal");
        }
    }

    public static void assertNotEquals(int want, int have) {
        if (want == have) {
            throw failure(null, "expected: not equal");
        }
    }

    public static void assertNotEquals(int want, int have, String message) {
        if (want == have) {
            throw failure(message, "expected: not equal");
        }
    }

    public static void assertNotEquals(long want, long have) {
        if (want == have) {
            throw failure(null, "expected: not equal");
        }
    }

    public static void assertNotEquals(long want, long have, String message) {
        if (want == have) {
            throw failure(message, "expected: not equal");
        }
    }

    public static void assertNotEquals(char want, char have) {
        if (want == have) {
            throw failure(null, "expected: not equal");
        }
    }

    public static void assertNotEquals(char want, char have, String message) {
        if (want == have) {
            throw failure(message, "expected: not equal");
        }
    }

    public static void assertNotEquals(Object want, Object have) {
        assertNotEquals(want, have, (String) null);
    }

    public static void assertArrayEquals(byte[] want, byte[] have, String message) {
        if (want == have) {
            return;
        }
        if (want == null || have == null || want.length != have.length) {
            throw failure(message, "arrays differ");
        }
        for (int at = 0; at < want.length; at++) {
            if (!(want[at] == have[at])) {
                throw failure(message, "arrays first differed at element [" + at + "]");
            }
        }
    }

    public static void assertArrayEquals(byte[] want, byte[] have) {
        assertArrayEquals(want, have, (String) null);
    }

    public static void assertArrayEquals(short[] want, short[] have, String message) {
        if (want == have) {
            return;
        }
        if (want == null || have == null || want.length != have.length) {
            throw failure(message, "arrays differ");
        }
        for (int at = 0; at < want.length; at++) {
            if (!(want[at] == have[at])) {
                throw failure(message, "arrays first differed at element [" + at + "]");
            }
        }
    }

    public static void assertArrayEquals(short[] want, short[] have) {
        assertArrayEquals(want, have, (String) null);
    }

    public static void assertArrayEquals(int[] want, int[] have, String message) {
        if (want == have) {
            return;
        }
        if (want == null || have == null || want.length != have.length) {
            throw failure(message, "arrays differ");
        }
        for (int at = 0; at < want.length; at++) {
            if (!(want[at] == have[at])) {
                throw failure(message, "arrays first differed at element [" + at + "]");
            }
        }
    }

    public static void assertArrayEquals(int[] want, int[] have) {
        assertArrayEquals(want, have, (String) null);
    }

    public static void assertArrayEquals(long[] want, long[] have, String message) {
        if (want == have) {
            return;
        }
        if (want == null || have == null || want.length != have.length) {
            throw failure(message, "arrays differ");
        }
        for (int at = 0; at < want.length; at++) {
            if (!(want[at] == have[at])) {
                throw failure(message, "arrays first differed at element [" + at + "]");
            }
        }
    }

    public static void assertArrayEquals(long[] want, long[] have) {
        assertArrayEquals(want, have, (String) null);
    }

    public static void assertArrayEquals(char[] want, char[] have, String message) {
        if (want == have) {
            return;
        }
        if (want == null || have == null || want.length != have.length) {
            throw failure(message, "arrays differ");
        }
        for (int at = 0; at < want.length; at++) {
            if (!(want[at] == have[at])) {
                throw failure(message, "arrays first differed at element [" + at + "]");
            }
        }
    }

    public static void assertArrayEquals(char[] want, char[] have) {
        assertArrayEquals(want, have, (String) null);
    }

    public static void assertArrayEquals(boolean[] want, boolean[] have, String message) {
        if (want == have) {
            return;
        }
        if (want == null || have == null || want.length != have.length) {
            throw failure(message, "arrays differ");
        }
        for (int at = 0; at < want.length; at++) {
            if (!(want[at] == have[at])) {
                throw failure(message, "arrays first differed at element [" + at + "]");
            }
        }
    }

    public static void assertArrayEquals(boolean[] want, boolean[] have) {
        assertArrayEquals(want, have, (String) null);
    }

    public static void assertArrayEquals(Object[] want, Object[] have, String message) {
        if (want == have) {
            return;
        }
        if (want == null || have == null || want.length != have.length) {
            throw failure(message, "arrays differ");
        }
        for (int at = 0; at < want.length; at++) {
            if (!(java.util.Arrays.deepEquals(new Object[] {want[at]}, new Object[] {have[at]}))) {
                throw failure(message, "arrays first differed at element [" + at + "]");
            }
        }
    }

    public static void assertArrayEquals(Object[] want, Object[] have) {
        assertArrayEquals(want, have, (String) null);
    }

    public static void assertIterableEquals(Iterable want, Iterable have) {
        assertIterableEquals(want, have, (String) null);
    }

    public static void assertIterableEquals(Iterable want, Iterable have, String message) {
        Iterator walk = want.iterator();
        Iterator beside = have.iterator();
        while (walk.hasNext() && beside.hasNext()) {
            if (!isSame(walk.next(), beside.next())) {
                throw failure(message, "iterables differ");
            }
        }
        if (walk.hasNext() || beside.hasNext()) {
            throw failure(message, "iterable lengths differ");
        }
    }

    public static Throwable assertThrows(Class kind, Executable code) {
        return assertThrows(kind, code, (String) null);
    }

    public static Throwable assertThrows(Class kind, Executable code, Supplier message) {
        return assertThrows(kind, code, text(message));
    }

    public static Throwable assertThrows(Class kind, Executable code, String message) {
        try {
            code.execute();
        } catch (Throwable thrown) {
            if (kind.isInstance(thrown)) {
                return thrown;
            }
            throw failure(message, "Unexpected exception type thrown");
        }
        throw failure(message, "Expected " + kind.getName() + " to be thrown, but nothing was thrown.");
    }

    public static void assertDoesNotThrow(Executable code) {
        assertDoesNotThrow(code, (String) null);
    }

    public static void assertDoesNotThrow(Executable code, String message) {
        try {
            code.execute();
        } catch (Throwable thrown) {
            throw failure(message, "Unexpected exception thrown: " + thrown.getClass().getName());
        }
    }

    public static Object assertDoesNotThrow(ThrowingSupplier code) {
        try {
            return code.get();
        } catch (Throwable thrown) {
            throw failure(null, "Unexpected exception thrown: " + thrown.getClass().getName());
        }
    }

    public static void assertAll(Executable[] all) {
        assertAll(null, all);
    }

    public static void assertAll(String heading, Executable[] all) {
        int failed = 0;
        for (int at = 0; at < all.length; at++) {
            try {
                all[at].execute();
            } catch (Throwable thrown) {
                failed++;
            }
        }
        if (failed > 0) {
            throw failure(heading, failed + " failures");
        }
    }

    public static Object assertInstanceOf(Class kind, Object of) {
        if (!kind.isInstance(of)) {
            throw failure(null, "Unexpected type");
        }
        return of;
    }
}
