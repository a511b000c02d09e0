package more.java.lang;

import java.util.ArrayList;

/** Members of java.lang.Throwable. */
public final class Throwable {
    private Throwable() {
    }

    public static java.lang.String getLocalizedMessage(java.lang.Throwable of) {
        return of.getMessage();
    }

    public static void printStackTrace(java.lang.Throwable of) {
    }

    public static java.lang.Throwable fillInStackTrace(java.lang.Throwable of) {
        return of;
    }

    public static StackTraceElement[] getStackTrace(java.lang.Throwable of) {
        return new StackTraceElement[0];
    }

    public static void setStackTrace(java.lang.Throwable of, StackTraceElement[] trace) {
    }

    /** What was suppressed, each behind what it was added to. */
    private static final ArrayList<java.lang.Throwable> SUPPRESSED = new ArrayList<>();

    public static void addSuppressed(java.lang.Throwable of, java.lang.Throwable other) {
        of.getClass();
        if (other == of) {
            throw new IllegalArgumentException("Self-suppression not permitted", other);
        }
        if (other == null) {
            throw new NullPointerException("Cannot suppress a null exception.");
        }
        SUPPRESSED.add(of);
        SUPPRESSED.add(other);
    }

    public static java.lang.Throwable[] getSuppressed(java.lang.Throwable of) {
        ArrayList<java.lang.Throwable> found = new ArrayList<>();
        for (int at = 0; at < SUPPRESSED.size(); at += 2) {
            if (SUPPRESSED.get(at) == of) {
                found.add(SUPPRESSED.get(at + 1));
            }
        }
        return found.toArray(new java.lang.Throwable[0]);
    }
}
