package junit.framework;

/** A class with tests of JUnit 3. Its methods are called by the annotations that tools/prepare gives them. */
public abstract class TestCase extends Assert implements Test {
    private String name;

    public TestCase() {
    }

    public TestCase(String name) {
        this.name = name;
    }

    public String getName() {
        return name;
    }

    public void setName(String name) {
        this.name = name;
    }

    public int countTestCases() {
        return 1;
    }

    public void runBare() throws Throwable {
        throw new UnsupportedOperationException();
    }

    protected void runTest() throws Throwable {
        throw new UnsupportedOperationException();
    }

    protected void setUp() throws Exception {
    }

    protected void tearDown() throws Exception {
    }

    @Override
    public String toString() {
        return getName() + "(" + getClass().getName() + ")";
    }

    public static void fail(String message) {
        Assert.fail(message);
    }

    public static void fail() {
        Assert.fail();
    }

    public static void assertTrue(String message, boolean of) {
        Assert.assertTrue(message, of);
    }

    public static void assertTrue(boolean of) {
        Assert.assertTrue(of);
    }

    public static void assertFalse(String message, boolean of) {
        Assert.assertFalse(message, of);
    }

    public static void assertFalse(boolean of) {
        Assert.assertFalse(of);
    }

    public static void assertEquals(String message, Object want, Object have) {
        Assert.assertEquals(message, want, have);
    }

    public static void assertEquals(Object want, Object have) {
        Assert.assertEquals(want, have);
    }

    public static void assertEquals(String message, String want, String have) {
        Assert.assertEquals(message, want, have);
    }

    public static void assertEquals(String want, String have) {
        Assert.assertEquals(want, have);
    }

    public static void assertEquals(String message, long want, long have) {
        Assert.assertEquals(message, want, have);
    }

    public static void assertEquals(long want, long have) {
        Assert.assertEquals(want, have);
    }

    public static void assertEquals(String message, int want, int have) {
        Assert.assertEquals(message, want, have);
    }

    public static void assertEquals(int want, int have) {
        Assert.assertEquals(want, have);
    }

    public static void assertEquals(String message, short want, short have) {
        Assert.assertEquals(message, want, have);
    }

    public static void assertEquals(short want, short have) {
        Assert.assertEquals(want, have);
    }

    public static void assertEquals(String message, byte want, byte have) {
        Assert.assertEquals(message, want, have);
    }

    public static void assertEquals(byte want, byte have) {
        Assert.assertEquals(want, have);
    }

    public static void assertEquals(String message, char want, char have) {
        Assert.assertEquals(message, want, have);
    }

    public static void assertEquals(char want, char have) {
        Assert.assertEquals(want, have);
    }

    public static void assertEquals(String message, boolean want, boolean have) {
        Assert.assertEquals(message, want, have);
    }

    public static void assertEquals(boolean want, boolean have) {
        Assert.assertEquals(want, have);
    }

    public static void assertNull(String message, Object of) {
        Assert.assertNull(message, of);
    }

    public static void assertNull(Object of) {
        Assert.assertNull(of);
    }

    public static void assertNotNull(String message, Object of) {
        Assert.assertNotNull(message, of);
    }

    public static void assertNotNull(Object of) {
        Assert.assertNotNull(of);
    }

    public static void assertSame(String message, Object want, Object have) {
        Assert.assertSame(message, want, have);
    }

    public static void assertSame(Object want, Object have) {
        Assert.assertSame(want, have);
    }

    public static void assertNotSame(String message, Object want, Object have) {
        Assert.assertNotSame(message, want, have);
    }

    public static void assertNotSame(Object want, Object have) {
        Assert.assertNotSame(want, have);
    }
}
