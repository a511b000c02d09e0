package org.junit;

/** What the compiler sees of JUnit 4. */
public class Assert {
    public static void assertTrue(boolean condition) {
        if (!condition) {
            throw new AssertionError();
        }
    }

    public static void assertFalse(boolean condition) {
        assertTrue(!condition);
    }
}
