package shop;

/** Writes what is called. */
public class Log {
    public static void say(String called) {
        System.out.println("  " + called);
    }
}
