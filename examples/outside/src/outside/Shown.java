package outside;

import java.util.HashSet;
import java.util.List;
import java.util.Optional;
import java.util.Set;

/** Methods that the library's classes don't have as Java's do, and that are there nevertheless. */
public class Shown {
    public static String list(List<String> names) {
        return "names " + names;
    }

    public static boolean isEmpty(Set<String> names) {
        return names.equals(new HashSet<String>());
    }

    public static boolean isSame(Optional<String> name, String other) {
        return name.equals(Optional.of(other));
    }

    public static String failure(RuntimeException failure) {
        return failure.toString();
    }

    public static String kind(Object of) {
        return "a " + of.getClass();
    }

    public static int length(StringBuilder text) {
        return length((CharSequence) text);
    }

    private static int length(CharSequence text) {
        return text.length();
    }
}
