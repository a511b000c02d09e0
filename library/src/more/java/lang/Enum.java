package more.java.lang;

import java.lang.Class;
import java.lang.String;
import more.Known;

/** Members of java.lang.Enum. */
public final class Enum {
    private Enum() {
    }

    public static java.lang.Enum valueOf(Class of, String name) {
        if (name == null) {
            throw new NullPointerException("Name is null");
        }
        Object[] values = Known.values(of.getName());
        for (int at = 0; values != null && at < values.length; at++) {
            if (((java.lang.Enum) values[at]).name().equals(name)) {
                return (java.lang.Enum) values[at];
            }
        }
        throw new IllegalArgumentException("No enum constant " + of.getName().replace('$', '.') + "." + name);
    }

    public static int compareTo(java.lang.Enum of, java.lang.Enum other) {
        if (of.getClass() != other.getClass() && getDeclaringClass(of) != getDeclaringClass(other)) {
            throw new ClassCastException();
        }
        return of.ordinal() - other.ordinal();
    }

    public static Class getDeclaringClass(java.lang.Enum of) {
        Class own = of.getClass();
        String above = Known.above(own.getName());
        return above == null || above.startsWith("java.lang.Enum,") ? own : own.getSuperclass();
    }
}
