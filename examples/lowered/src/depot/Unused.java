package depot;

/** No test reaches it. */
public class Unused {
    public int zero() {
        return 0;
    }
}
