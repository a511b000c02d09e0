package java.math;

/** Which of two neighbours a number that lies between them is rounded to. */
public enum RoundingMode {
    UP, DOWN, CEILING, FLOOR, HALF_UP, HALF_DOWN, HALF_EVEN, UNNECESSARY;

    public static RoundingMode valueOf(int of) {
        if (of < 0 || of > 7) {
            throw new IllegalArgumentException("argument out of range");
        }
        return values()[of];
    }
}
