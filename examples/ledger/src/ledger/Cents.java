package ledger;

/** Amounts as whole cents: their texts, and arithmetic that says where it would pass 64 bits. */
public final class Cents {
    private Cents() {
    }

    /** The cents of a text as `12`, `12.5`, `12.50` or `-0.05`. */
    public static long parse(String text) {
        boolean below = text.startsWith("-");
        String digits = below ? text.substring(1) : text;
        int point = digits.indexOf('.');
        String whole = point < 0 ? digits : digits.substring(0, point);
        String part = point < 0 ? "" : digits.substring(point + 1);
        if (whole.isEmpty() || part.length() > 2) {
            throw new NumberFormatException(text);
        }
        long cents = number(whole) * 100 + number((part + "00").substring(0, 2));
        return below ? -cents : cents;
    }

    private static long number(String digits) {
        long number = 0;
        for (char digit : digits.toCharArray()) {
            if (!Character.isDigit(digit)) {
                throw new NumberFormatException(digits);
            }
            number = number * 10 + (digit - '0');
        }
        return number;
    }

    /** With a comma between thousands: `-1,234.50`. */
    public static String show(long cents) {
        StringBuilder text = new StringBuilder();
        if (cents < 0) {
            text.append('-');
        }
        String whole = String.valueOf(Math.abs(cents / 100));
        for (int at = 0; at < whole.length(); at++) {
            if (at > 0 && (whole.length() - at) % 3 == 0) {
                text.append(',');
            }
            text.append(whole.charAt(at));
        }
        long part = Math.abs(cents % 100);
        return text.append(part < 10 ? ".0" : ".").append(part).toString();
    }

    public static long plus(long a, long b) {
        long sum = a + b;
        if (((a ^ sum) & (b ^ sum)) < 0) {
            throw new ArithmeticException("an amount past 64 bits");
        }
        return sum;
    }

    /** So many hundredths of a percent of an amount, rounded half away from nothing. */
    public static long share(long cents, int hundredths) {
        long scaled = cents * hundredths;
        long half = scaled < 0 ? -5000 : 5000;
        return (scaled + half) / 10000;
    }
}
