package outside;

/** A float inside a method that has none in its descriptor. */
public class Half {
    public static int of(int a) {
        return (int) (a * 0.5f);
    }
}
