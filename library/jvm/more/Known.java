package more;

import java.lang.reflect.Array;
import java.lang.reflect.Constructor;
import java.lang.reflect.Method;

/**
 * What a JVM knows of classes by their names. Under mutest a class of this name, which tools/prepare makes, knows it of those
 * classes that the code itself names.
 */
public final class Known {
    private Known() {
    }

    /** The class of a name, or null. */
    public static Class<?> named(String name) {
        switch (name) {
            case "int":
                return int.class;
            case "long":
                return long.class;
            case "short":
                return short.class;
            case "byte":
                return byte.class;
            case "char":
                return char.class;
            case "boolean":
                return boolean.class;
            case "float":
                return float.class;
            case "double":
                return double.class;
            case "void":
                return void.class;
            default:
                break;
        }
        try {
            return Class.forName(name, false, Thread.currentThread().getContextClassLoader());
        } catch (ClassNotFoundException | LinkageError none) {
            return null;
        }
    }

    /** An array of objects of a class, or null. */
    public static Object[] array(String name, int length) {
        Class<?> found = named(name);
        return found == null ? null : (Object[]) Array.newInstance(found, length);
    }

    /** The names of all that stands above a class, each with a comma behind it, its superclass first; or null. */
    public static String above(String name) {
        Class<?> found = named(name);
        return found == null ? null : above(found, "");
    }

    private static String above(Class<?> of, String names) {
        String all = names;
        Class<?> first = of.getSuperclass();
        if (first != null) {
            all = above(first, all + first.getName() + ",");
        }
        for (Class<?> next : of.getInterfaces()) {
            all = above(next, all + next.getName() + ",");
        }
        return all;
    }

    /** A new object of a class, by its constructor without arguments, or null. */
    public static Object make(String name) {
        try {
            Constructor<?> made = named(name).getDeclaredConstructor();
            made.setAccessible(true);
            return made.newInstance();
        } catch (ReflectiveOperationException | RuntimeException none) {
            return null;
        }
    }

    /** The constants of an enum class, or null. */
    public static Object[] values(String name) {
        try {
            Method values = named(name).getDeclaredMethod("values");
            values.setAccessible(true);
            return (Object[]) values.invoke(null);
        } catch (ReflectiveOperationException | RuntimeException none) {
            return null;
        }
    }

    /** The methods that a class declares are asked of a JVM itself. */
    public static String methods(String name) {
        return null;
    }
}
