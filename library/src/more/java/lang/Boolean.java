package more.java.lang;

import java.lang.Class;

/** Members of java.lang.Boolean. */
public final class Boolean {
    public static final Class<?> TYPE = more.Known.named("boolean");
    public static final java.lang.Boolean TRUE = java.lang.Boolean.valueOf(true);
    public static final java.lang.Boolean FALSE = java.lang.Boolean.valueOf(false);

    private Boolean() {
    }

    public static java.lang.Boolean make(java.lang.Boolean a, java.lang.Boolean b, boolean of) {
        return java.lang.Boolean.valueOf(of);
    }

    public static boolean parseBoolean(java.lang.String of) {
        return of != null && of.equalsIgnoreCase("true");
    }

    public static java.lang.Boolean valueOf(java.lang.String of) {
        return java.lang.Boolean.valueOf(parseBoolean(of));
    }

    public static java.lang.String toString(boolean of) {
        return of ? "true" : "false";
    }

    public static boolean getBoolean(java.lang.String name) {
        return parseBoolean(System.getProperty(name));
    }

    public static int compare(boolean one, boolean other) {
        return one == other ? 0 : one ? 1 : -1;
    }

    public static int compareTo(java.lang.Boolean one, java.lang.Boolean other) {
        return compare(one.booleanValue(), other.booleanValue());
    }

    public static int hashCode(boolean of) {
        return of ? 1231 : 1237;
    }

    public static boolean logicalXor(boolean one, boolean other) {
        return one ^ other;
    }
}
