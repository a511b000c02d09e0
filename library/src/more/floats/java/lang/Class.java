package more.floats.java.lang;

import java.lang.Object;
import java.lang.Number;
import java.lang.String;
import more.floats.Kinds;

/** What java.lang.Class says of classes that have another name here, and of those of arrays of numbers. */
public final class Class {
    private Class() {
    }

    public static String getName(java.lang.Class of) {
        String name = of.getName();
        if (!name.startsWith("more.")) {
            return name;
        }
        if (name.startsWith("more.floats.Kinds$")) {
            return Kinds.named(name);
        }
        return name.startsWith("more.floats.java.") ? name.substring(12) : name.equals("more.java.lang.Number") ? name.substring(5) : name;
    }

    public static String getSimpleName(java.lang.Class of) {
        String name = getName(of);
        int depth = name.lastIndexOf('[') + 1;
        if (depth == 0 || depth + 1 < name.length() || name.charAt(depth) != 'D' && name.charAt(depth) != 'F') {
            return of.getSimpleName();
        }
        return (name.charAt(depth) == 'D' ? "double" : "float") + "[][][]".substring(0, 2 * depth);
    }

    public static java.lang.Class getComponentType(java.lang.Class of) {
        String name = getName(of);
        java.lang.Class found = name.startsWith("[") ? named(name.substring(1)) : null;
        return found != null ? found : of.getComponentType();
    }

    /** The class of arrays of numbers, or of numbers themselves, by its name in a descriptor. */
    private static java.lang.Class named(String kind) {
        switch (kind) {
            case "D":
                return double.class;
            case "[D":
                return double[].class;
            case "[[D":
                return double[][].class;
            case "[[[D":
                return double[][][].class;
            case "F":
                return float.class;
            case "[F":
                return float[].class;
            case "[[F":
                return float[][].class;
            case "[[[F":
                return float[][][].class;
            case "J":
                return long.class;
            case "[J":
                return long[].class;
            case "[[J":
                return long[][].class;
            case "I":
                return int.class;
            case "[I":
                return int[].class;
            case "[[I":
                return int[][].class;
            case "Ljava.lang.Number;":
                return Number.class;
            case "[Ljava.lang.Number;":
                return Number[].class;
            default:
                return null;
        }
    }

    public static java.lang.Class forName(String name) throws ClassNotFoundException {
        java.lang.Class found = name.startsWith("[") ? named(name) : null;
        return found != null ? found : java.lang.Class.forName(name);
    }

    public static boolean isInstance(java.lang.Class of, Object other) {
        if (of == Number.class) {
            return other instanceof Number;
        }
        if (of == Number[].class) {
            return other instanceof Number[];
        }
        String name = getName(of);
        return name.startsWith("[") && named(name) != null ? other != null && other.getClass() == of : of.isInstance(other);
    }

    public static Object cast(java.lang.Class of, Object other) {
        if (other != null && !isInstance(of, other)) {
            throw new ClassCastException("Cannot cast " + other.getClass().getName() + " to " + of.getName());
        }
        return other;
    }
}
