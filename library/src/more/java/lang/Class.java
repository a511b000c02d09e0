package more.java.lang;

import java.lang.Math;
import java.lang.String;
import java.lang.StringBuilder;
import java.lang.reflect.Method;
import more.Known;

/** Members of java.lang.Class. */
public final class Class {
    private Class() {
    }

    public static boolean isInstance(java.lang.Class of, Object other) {
        return Kinds.isInstance(of, other);
    }

    public static Object cast(java.lang.Class of, Object other) {
        if (other != null && !Kinds.isInstance(of, other)) {
            throw new ClassCastException("Cannot cast " + other.getClass().getName() + " to " + of.getName());
        }
        return other;
    }

    public static boolean isArray(java.lang.Class of) {
        return of.getName().startsWith("[");
    }

    public static boolean isPrimitive(java.lang.Class of) {
        return ",int,long,short,byte,char,boolean,void,float,double,".contains("," + of.getName() + ",");
    }

    public static String getSimpleName(java.lang.Class of) {
        String name = of.getName();
        int depth = 0;
        while (name.startsWith("[")) {
            name = name.substring(1);
            depth++;
        }
        name = depth == 0 ? name : plain(name);
        int at = Math.max(name.lastIndexOf('.'), name.lastIndexOf('$')) + 1;
        while (at < name.length() && name.charAt(at) >= '0' && name.charAt(at) <= '9') {
            at++;
        }
        StringBuilder made = new StringBuilder(name.substring(at));
        for (int next = 0; next < depth; next++) {
            made.append("[]");
        }
        return made.toString();
    }

    private static String plain(String kind) {
        switch (kind.charAt(0)) {
            case 'I':
                return "int";
            case 'J':
                return "long";
            case 'S':
                return "short";
            case 'B':
                return "byte";
            case 'C':
                return "char";
            case 'Z':
                return "boolean";
            default:
                return kind.substring(1, kind.length() - 1);
        }
    }

    public static String toString(java.lang.Class of) {
        return "class " + of.getName();
    }

    public static java.lang.Class getSuperclass(java.lang.Class of) {
        String above = Known.above(of.getName());
        return above == null || above.isEmpty() ? null : Known.named(above.substring(0, above.indexOf(",")));
    }

    public static boolean isAssignableFrom(java.lang.Class of, java.lang.Class other) {
        String above = Known.above(other.getName());
        return of == other || of == Object.class || above != null && ("," + above).contains("," + of.getName() + ",");
    }

    public static boolean isEnum(java.lang.Class of) {
        String above = Known.above(of.getName());
        return above != null && above.startsWith("java.lang.Enum,");
    }

    public static java.lang.Class getComponentType(java.lang.Class of) {
        String name = of.getName();
        return name.startsWith("[L") ? Known.named(name.substring(2, name.length() - 1)) : null;
    }

    public static Object[] getEnumConstants(java.lang.Class of) {
        return Known.values(of.getName());
    }

    public static Method[] getDeclaredMethods(java.lang.Class of) {
        try {
            return of.getDeclaredMethods();
        } catch (NoSuchMethodError none) {
            String all = Known.methods(of.getName());
            if (all == null) {
                throw none;
            }
            return Method.all(of, all);
        }
    }

    public static Object newInstance(java.lang.Class of) throws InstantiationException {
        Object made = Known.make(of.getName());
        if (made == null) {
            throw new InstantiationException(of.getName());
        }
        return made;
    }

    public static java.lang.Class forName(String name) throws ClassNotFoundException {
        java.lang.Class found = Known.named(name);
        if (found == null) {
            throw new ClassNotFoundException(name);
        }
        return found;
    }
}
