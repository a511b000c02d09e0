package java.lang.reflect;

import more.Known;

/** A method as a class declares it, which can't be called. */
public final class Method {
    private final Class<?> owner;
    private final String name;
    private final String descriptor;
    private final int flags;

    private Method(Class<?> owner, String name, String descriptor, int flags) {
        this.owner = owner;
        this.name = name;
        this.descriptor = descriptor;
        this.flags = flags;
    }

    /** Those of a class: each by its name, its descriptor and its flags, with a space behind them. */
    public static Method[] all(Class<?> owner, String text) {
        String[] each = text.isEmpty() ? new String[0] : text.split(" ");
        Method[] made = new Method[each.length];
        for (int at = 0; at < made.length; at++) {
            int kinds = each[at].indexOf('(');
            int result = each[at].indexOf(')') + 1;
            int flags = result;
            while (each[at].charAt(flags) == '[') {
                flags++;
            }
            flags = each[at].charAt(flags) == 'L' ? each[at].indexOf(';', flags) + 1 : flags + 1;
            made[at] = new Method(owner, each[at].substring(0, kinds), each[at].substring(kinds, flags),
                Integer.parseInt(each[at].substring(flags)));
        }
        return made;
    }

    public Class<?> getDeclaringClass() {
        return owner;
    }

    public String getName() {
        return name;
    }

    public int getModifiers() {
        return flags;
    }

    public boolean isSynthetic() {
        return (flags & 0x1000) != 0;
    }

    public boolean isBridge() {
        return (flags & 0x40) != 0;
    }

    public boolean isVarArgs() {
        return (flags & 0x80) != 0;
    }

    public Class<?> getReturnType() {
        return kind(descriptor.substring(descriptor.indexOf(')') + 1));
    }

    public int getParameterCount() {
        int count = 0;
        for (int at = 1; descriptor.charAt(at) != ')'; at = end(at)) {
            count++;
        }
        return count;
    }

    public Class<?>[] getParameterTypes() {
        Class<?>[] made = new Class<?>[getParameterCount()];
        int at = 1;
        for (int next = 0; next < made.length; next++) {
            made[next] = kind(descriptor.substring(at, end(at)));
            at = end(at);
        }
        return made;
    }

    /** Where the kind that begins at a place ends. */
    private int end(int from) {
        int at = from;
        while (descriptor.charAt(at) == '[') {
            at++;
        }
        return descriptor.charAt(at) == 'L' ? descriptor.indexOf(';', at) + 1 : at + 1;
    }

    private static Class<?> kind(String text) {
        switch (text) {
            case "I":
                return int.class;
            case "J":
                return long.class;
            case "Z":
                return boolean.class;
            case "B":
                return byte.class;
            case "C":
                return char.class;
            case "S":
                return short.class;
            case "F":
                return float.class;
            case "D":
                return double.class;
            case "V":
                return Known.named("void");
            case "[I":
                return int[].class;
            case "[J":
                return long[].class;
            case "[Z":
                return boolean[].class;
            case "[B":
                return byte[].class;
            case "[C":
                return char[].class;
            case "[S":
                return short[].class;
            case "[F":
                return float[].class;
            case "[D":
                return double[].class;
            default:
                break;
        }
        if (text.charAt(0) == '[') {
            return Array.newInstance(kind(text.substring(1)), 0).getClass();
        }
        String name = text.substring(1, text.length() - 1).replace('/', '.');
        Class<?> found = Known.named(name);
        if (found == null) {
            throw new NoClassDefFoundError(name);
        }
        return found;
    }

    @Override
    public boolean equals(Object other) {
        return other instanceof Method && owner == ((Method) other).owner && name.equals(((Method) other).name)
            && descriptor.equals(((Method) other).descriptor);
    }

    @Override
    public int hashCode() {
        return owner.getName().hashCode() ^ name.hashCode();
    }
}
