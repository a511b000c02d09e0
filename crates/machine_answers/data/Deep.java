/** A recursion that is too deep, and nothing else. */
public class Deep {
    static class D {
        static void r() {
            r();
        }
    }

    public void recursion() {
        D.r();
    }
}
