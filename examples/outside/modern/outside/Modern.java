package outside;

/** Compiled for release 11. */
public class Modern {
    public static String name(int number) {
        return "number " + number;
    }
}
