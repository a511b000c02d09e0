package outside;

/** A lambda, and a method reference. */
public class Later {
    public static Runnable of(StringBuilder text) {
        return () -> text.append("later");
    }

    public static Runnable cleared(java.util.List<String> list) {
        return list::clear;
    }
}
