package more.java.lang;

import java.lang.Character;
import java.lang.String;

/** Numbers written in some radix, and read. */
final class Digits {
    private Digits() {
    }

    static String written(long of, int radix) {
        int by = radix < 2 || radix > 36 ? 10 : radix;
        if (of == 0) {
            return "0";
        }
        char[] digits = new char[65];
        int at = digits.length;
        for (long left = of < 0 ? of : -of; left != 0; left /= by) {
            digits[--at] = Character.forDigit((int) -(left % by), by);
        }
        if (of < 0) {
            digits[--at] = '-';
        }
        return new String(digits, at, digits.length - at);
    }

    /** The bits of a number, some to a digit. */
    static String bits(long of, int some) {
        char[] digits = new char[64];
        int at = digits.length;
        long left = of;
        do {
            digits[--at] = Character.forDigit((int) left & (1 << some) - 1, 16);
            left >>>= some;
        } while (left != 0);
        return new String(digits, at, digits.length - at);
    }

    static long read(String of, int radix, long least, long most) {
        if (of == null) {
            throw new NumberFormatException("null");
        }
        boolean isNegative = of.startsWith("-");
        int at = isNegative || of.startsWith("+") ? 1 : 0;
        if (at == of.length() || radix < 2 || radix > 36) {
            throw wrong(of);
        }
        long limit = isNegative ? least : -most;
        long found = 0;
        for (; at < of.length(); at++) {
            int digit = Character.digit(of.charAt(at), radix);
            if (digit < 0 || found < limit / radix || found * radix < limit + digit) {
                throw wrong(of);
            }
            found = found * radix - digit;
        }
        return isNegative ? found : -found;
    }

    private static NumberFormatException wrong(String of) {
        return new NumberFormatException("For input string: \"" + of + "\"");
    }

    /** A number that may begin with 0x, # or 0. */
    static long decoded(String of, long least, long most) {
        boolean isNegative = of.startsWith("-");
        int at = isNegative || of.startsWith("+") ? 1 : 0;
        int radix = 10;
        if (of.startsWith("0x", at) || of.startsWith("0X", at)) {
            radix = 16;
            at += 2;
        } else if (of.startsWith("#", at)) {
            radix = 16;
            at++;
        } else if (of.startsWith("0", at) && of.length() > at + 1) {
            radix = 8;
            at++;
        }
        return read((isNegative ? "-" : "") + of.substring(at), radix, least, most);
    }
}
