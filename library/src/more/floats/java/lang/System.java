package more.floats.java.lang;

import more.floats.Arrays;

/** What java.lang.System does with arrays of floats. */
public final class System {
    private System() {
    }

    public static void arraycopy(java.lang.Object from, int at, java.lang.Object into, int to, int count) {
        if (!Arrays.copy(from, at, into, to, count)) {
            java.lang.System.arraycopy(from, at, into, to, count);
        }
    }
}
