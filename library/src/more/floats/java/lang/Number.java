package more.floats.java.lang;

import java.lang.Byte;
import java.lang.Integer;
import java.lang.Long;
import java.lang.Short;

/** Members of java.lang.Number that have floats. */
public final class Number {
    private Number() {
    }

    private static boolean isWhole(java.lang.Number of) {
        return of instanceof Integer || of instanceof Long || of instanceof Short || of instanceof Byte;
    }

    public static double doubleValue(java.lang.Number of) {
        return isWhole(of) ? of.longValue() : ((more.java.lang.Number) (java.lang.Object) of).doubleValue();
    }

    public static float floatValue(java.lang.Number of) {
        return isWhole(of) ? of.longValue() : ((more.java.lang.Number) (java.lang.Object) of).floatValue();
    }
}
