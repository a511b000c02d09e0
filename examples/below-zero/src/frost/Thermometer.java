package frost;

/** What the keeper of a cold room asks of temperatures, in whole degrees. */
public class Thermometer {
    public static boolean isFrost(int degrees) {
        if (degrees < 0) {
            return true;
        }
        return false;
    }

    public static boolean isBetween(int degrees, int low, int high) {
        if (degrees < low) {
            return false;
        }
        if (degrees > high) {
            return false;
        }
        return true;
    }

    /** The hours that have passed once the room is no longer below the limit, where it warms by two degrees an hour. */
    public static int hoursUntil(int limit, int degrees, int hours) {
        while (degrees < limit) {
            degrees = degrees + 2;
            hours = hours + 1;
        }
        return hours;
    }
}
