package more.floats.java.io;

/** Members of java.io.PrintStream that have floats. */
public final class PrintStream {
    private PrintStream() {
    }

    public static void print(java.io.PrintStream to, double of) {
        to.print(Double.toString(of));
    }

    public static void print(java.io.PrintStream to, float of) {
        to.print(Float.toString(of));
    }

    public static void println(java.io.PrintStream to, double of) {
        to.println(Double.toString(of));
    }

    public static void println(java.io.PrintStream to, float of) {
        to.println(Float.toString(of));
    }
}
