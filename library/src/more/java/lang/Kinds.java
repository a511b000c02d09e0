package more.java.lang;

import java.lang.Class;
import java.lang.String;
import more.Known;

/** Arrays and objects of classes that are known by name. */
public final class Kinds {
    private Kinds() {
    }

    /** An empty array of the kind of another one; of objects, where that kind isn't known. */
    public static Object[] array(Object[] like, int length) {
        if (like.getClass() == java.lang.Number[].class) {
            return new java.lang.Number[length];
        }
        String name = like.getClass().getName();
        Object[] made = name.startsWith("[L") ? Known.array(name.substring(2, name.length() - 1), length) : null;
        if (made != null) {
            return made;
        }
        if (like instanceof double[][]) {
            return new double[length][];
        }
        if (like instanceof float[][]) {
            return new float[length][];
        }
        if (like instanceof long[][]) {
            return new long[length][];
        }
        if (like instanceof int[][]) {
            return new int[length][];
        }
        if (like instanceof char[][]) {
            return new char[length][];
        }
        if (like instanceof byte[][]) {
            return new byte[length][];
        }
        if (like instanceof String[][]) {
            return new String[length][];
        }
        return like instanceof Object[][] ? new Object[length][] : new Object[length];
    }

    /** An empty array of a class of arrays. */
    public static Object[] array(Class<?> kind, int length) {
        String name = kind.getName();
        if (!name.startsWith("[")) {
            throw new NullPointerException();
        }
        if (name.startsWith("[L")) {
            Object[] made = Known.array(name.substring(2, name.length() - 1), length);
            return made == null ? new Object[length] : made;
        }
        return array(name.equals("[[I") ? new int[0][] : name.equals("[[C") ? new char[0][] : name.equals("[[B") ? new byte[0][]
            : name.equals("[[Ljava.lang.String;") ? new String[0][] : new Object[0][], length);
    }

    /** Whether an object is one of a class: an array of the class takes it. */
    public static boolean isInstance(Class<?> kind, Object of) {
        if (of == null || kind == of.getClass() || kind == Object.class) {
            return of != null;
        }
        Object[] room = Known.array(kind.getName(), 1);
        if (room == null) {
            throw new NoClassDefFoundError(kind.getName());
        }
        try {
            room[0] = of;
            return true;
        } catch (ArrayStoreException unlike) {
            return false;
        }
    }
}
