package more.java.util;

/** A method that isn't there is missed before what it is called on is looked at. */
final class Nulls {
    private Nulls() {
    }

    static void refuse(Object of) {
        if (of == null) {
            throw new NullPointerException();
        }
    }
}
