package outside;

/** A float. */
public class Average {
    public static double of(int a, int b) {
        return (a + b) / 2.0;
    }
}
