package more.java.lang;

import java.lang.Byte;
import java.lang.Integer;
import java.lang.Long;
import java.lang.Short;

/** Members of java.lang.Number. */
public interface Number {
    int intValue();

    long longValue();

    float floatValue();

    double doubleValue();

    default short shortValue() {
        return (short) intValue();
    }

    default byte byteValue() {
        return (byte) intValue();
    }

    static Object cast(Object of) {
        if (of != null && !isInstance(of)) {
            throw new ClassCastException(of.getClass().getName() + " cannot be cast to java.lang.Number");
        }
        return of;
    }

    static boolean isInstance(Object of) {
        return of instanceof Integer || of instanceof Long || of instanceof Number || of instanceof Short || of instanceof Byte;
    }

    static int intValue(java.lang.Number of) {
        return of instanceof Number ? ((Number) of).intValue() : (int) longValue(of);
    }

    static long longValue(java.lang.Number of) {
        if (of instanceof Integer) {
            return ((Integer) of).intValue();
        }
        if (of instanceof Long) {
            return ((Long) of).longValue();
        }
        if (of instanceof Short) {
            return ((Short) of).shortValue();
        }
        if (of instanceof Byte) {
            return ((Byte) of).byteValue();
        }
        return of instanceof Number ? ((Number) of).longValue() : of.longValue();
    }

    static short shortValue(java.lang.Number of) {
        return of instanceof Number ? ((Number) of).shortValue() : (short) longValue(of);
    }

    static byte byteValue(java.lang.Number of) {
        return of instanceof Number ? ((Number) of).byteValue() : (byte) longValue(of);
    }
}
