package java.lang;

import java.io.InputStream;
import java.io.PrintStream;

/** What of the system a test can see without one: no clock, no environment, nothing that is printed. */
public final class System {
    public static final InputStream in = null;
    public static final PrintStream out = new PrintStream(null);
    public static final PrintStream err = new PrintStream(null);

    private System() {
    }

    public static void arraycopy(Object from, int at, Object into, int to, int count) {
        if (from == null || into == null) {
            throw new NullPointerException();
        }
        if (from instanceof Object[] && into instanceof Object[]) {
            check(at, ((Object[]) from).length, to, ((Object[]) into).length, count);
            copy((Object[]) from, at, (Object[]) into, to, count, from == into && at < to);
        } else if (from instanceof byte[] && into instanceof byte[]) {
            check(at, ((byte[]) from).length, to, ((byte[]) into).length, count);
            copy((byte[]) from, at, (byte[]) into, to, count, from == into && at < to);
        } else if (from instanceof char[] && into instanceof char[]) {
            check(at, ((char[]) from).length, to, ((char[]) into).length, count);
            copy((char[]) from, at, (char[]) into, to, count, from == into && at < to);
        } else if (from instanceof int[] && into instanceof int[]) {
            check(at, ((int[]) from).length, to, ((int[]) into).length, count);
            copy((int[]) from, at, (int[]) into, to, count, from == into && at < to);
        } else if (from instanceof long[] && into instanceof long[]) {
            check(at, ((long[]) from).length, to, ((long[]) into).length, count);
            copy((long[]) from, at, (long[]) into, to, count, from == into && at < to);
        } else if (from instanceof short[] && into instanceof short[]) {
            check(at, ((short[]) from).length, to, ((short[]) into).length, count);
            copy((short[]) from, at, (short[]) into, to, count, from == into && at < to);
        } else if (from instanceof boolean[] && into instanceof boolean[]) {
            check(at, ((boolean[]) from).length, to, ((boolean[]) into).length, count);
            copy((boolean[]) from, at, (boolean[]) into, to, count, from == into && at < to);
        } else {
            throw new ArrayStoreException("arraycopy");
        }
    }

    private static void check(int at, int length, int to, int room, int count) {
        if (at < 0 || to < 0 || count < 0 || at > length - count || to > room - count) {
            throw new ArrayIndexOutOfBoundsException("arraycopy");
        }
    }

    private static void copy(Object[] from, int at, Object[] into, int to, int count, boolean isBackwards) {
        for (int next = 0; !isBackwards && next < count; next++) {
            into[to + next] = from[at + next];
        }
        for (int next = count - 1; isBackwards && next >= 0; next--) {
            into[to + next] = from[at + next];
        }
    }

    private static void copy(byte[] from, int at, byte[] into, int to, int count, boolean isBackwards) {
        for (int next = 0; !isBackwards && next < count; next++) {
            into[to + next] = from[at + next];
        }
        for (int next = count - 1; isBackwards && next >= 0; next--) {
            into[to + next] = from[at + next];
        }
    }

    private static void copy(char[] from, int at, char[] into, int to, int count, boolean isBackwards) {
        for (int next = 0; !isBackwards && next < count; next++) {
            into[to + next] = from[at + next];
        }
        for (int next = count - 1; isBackwards && next >= 0; next--) {
            into[to + next] = from[at + next];
        }
    }

    private static void copy(int[] from, int at, int[] into, int to, int count, boolean isBackwards) {
        for (int next = 0; !isBackwards && next < count; next++) {
            into[to + next] = from[at + next];
        }
        for (int next = count - 1; isBackwards && next >= 0; next--) {
            into[to + next] = from[at + next];
        }
    }

    private static void copy(long[] from, int at, long[] into, int to, int count, boolean isBackwards) {
        for (int next = 0; !isBackwards && next < count; next++) {
            into[to + next] = from[at + next];
        }
        for (int next = count - 1; isBackwards && next >= 0; next--) {
            into[to + next] = from[at + next];
        }
    }

    private static void copy(short[] from, int at, short[] into, int to, int count, boolean isBackwards) {
        for (int next = 0; !isBackwards && next < count; next++) {
            into[to + next] = from[at + next];
        }
        for (int next = count - 1; isBackwards && next >= 0; next--) {
            into[to + next] = from[at + next];
        }
    }

    private static void copy(boolean[] from, int at, boolean[] into, int to, int count, boolean isBackwards) {
        for (int next = 0; !isBackwards && next < count; next++) {
            into[to + next] = from[at + next];
        }
        for (int next = count - 1; isBackwards && next >= 0; next--) {
            into[to + next] = from[at + next];
        }
    }

    public static int identityHashCode(Object of) {
        return of == null ? 0 : of.getClass().hashCode();
    }

    private static final String[] PROPERTIES = {"line.separator", "\n", "file.separator", "/", "path.separator", ":",
        "java.version", "1.8.0", "java.specification.version", "1.8", "java.class.version", "52.0", "java.vendor", "mutest",
        "java.vm.name", "mutest", "java.io.tmpdir", "/tmp", "os.name", "Linux", "os.version", "0", "os.arch", "amd64",
        "user.dir", "/", "user.home", "/", "user.name", "user", "file.encoding", "UTF-8"};

    public static String getProperty(String name) {
        if (name.isEmpty()) {
            throw new IllegalArgumentException("key can't be empty");
        }
        for (int at = 0; at < PROPERTIES.length; at += 2) {
            if (name.equals(PROPERTIES[at])) {
                return PROPERTIES[at + 1];
            }
        }
        return null;
    }

    public static String getProperty(String name, String other) {
        String found = getProperty(name);
        return found == null ? other : found;
    }

    public static String lineSeparator() {
        return "\n";
    }

    public static String getenv(String name) {
        return null;
    }

    public static long currentTimeMillis() {
        return 0;
    }

    public static long nanoTime() {
        return 0;
    }

    public static void gc() {
    }
}
