package more.floats;

/** Classes that stand for those of arrays of floats and of Numbers, which have another one here. */
public final class Kinds {
    private Kinds() {
    }

    public static final class Doubles {
    }

    public static final class Doubles2 {
    }

    public static final class Doubles3 {
    }

    public static final class Floats {
    }

    public static final class Floats2 {
    }

    public static final class Floats3 {
    }

    public static final class Numbers {
    }

    /** The name of the class that one of these stands for, or null. */
    public static String named(String name) {
        switch (name.substring(18)) {
            case "Doubles":
                return "[D";
            case "Doubles2":
                return "[[D";
            case "Doubles3":
                return "[[[D";
            case "Floats":
                return "[F";
            case "Floats2":
                return "[[F";
            case "Floats3":
                return "[[[F";
            case "Numbers":
                return "[Ljava.lang.Number;";
            default:
                return null;
        }
    }
}
