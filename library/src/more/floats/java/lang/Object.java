package more.floats.java.lang;

import java.lang.Class;
import more.floats.Arrays;
import more.floats.Kinds;

/** What java.lang.Object says of arrays of floats and of Numbers. */
public final class Object {
    private Object() {
    }

    public static Class getClass(java.lang.Object of) {
        if (!(of instanceof java.lang.Object[]) && !Arrays.isOfNumbers(of) || !Arrays.knows(of)) {
            return of.getClass();
        }
        if (of instanceof double[]) {
            return Kinds.Doubles.class;
        }
        if (of instanceof float[]) {
            return Kinds.Floats.class;
        }
        if (of instanceof double[][]) {
            return Kinds.Doubles2.class;
        }
        if (of instanceof float[][]) {
            return Kinds.Floats2.class;
        }
        if (of instanceof double[][][]) {
            return Kinds.Doubles3.class;
        }
        return of instanceof float[][][] ? Kinds.Floats3.class : Kinds.Numbers.class;
    }
}
