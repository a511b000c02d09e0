package outside;

/** A native method. */
public class Clock {
    public static native long now();
}
