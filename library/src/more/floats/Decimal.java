package more.floats;

/** Decimal texts of floats, which are taken and given by their bits: the shortest one that is read as the number, and the number that is nearest to a text. */
public final class Decimal {
    /** Bits of a place of a large number, which is a row of longs, the lowest first. */
    private static final int BITS = 58;
    private static final long MASK = (1L << BITS) - 1;

    /** The digits as a text without a point, and the power of ten that the first one counts. */
    public final String digits;
    public final int power;

    private Decimal(String digits, int power) {
        this.digits = digits;
        this.power = power;
    }

    // Texts.

    /** As Double.toString has it (JDK 19 and later, where it is the shortest). */
    public static String text(long bits) {
        long size = bits & Soft.REST;
        String sign = bits < 0 ? "-" : "";
        if (size >= Soft.INFINITE) {
            return size > Soft.INFINITE ? "NaN" : sign + "Infinity";
        }
        return size == 0 ? sign + "0.0" : sign + shown(of(size));
    }

    /** As Float.toString has it. */
    public static String textOfFloat(int bits) {
        int size = bits & 0x7fffffff;
        String sign = bits < 0 ? "-" : "";
        if (size >= 0x7f800000) {
            return size > 0x7f800000 ? "NaN" : sign + "Infinity";
        }
        return size == 0 ? sign + "0.0" : sign + shown(ofFloat(size));
    }

    private static String shown(Decimal of) {
        String digits = of.digits;
        int length = digits.length();
        int power = of.power;
        if (power >= 7 || power < -3) {
            return digits.substring(0, 1) + "." + (length > 1 ? digits.substring(1) : "0") + "E" + power;
        }
        if (power < 0) {
            return "0." + "00".substring(0, -1 - power) + digits;
        }
        if (length <= power + 1) {
            return digits + "000000".substring(0, power + 1 - length) + ".0";
        }
        return digits.substring(0, power + 1) + "." + digits.substring(power + 1);
    }

    /** The shortest digits of a positive double. */
    public static Decimal of(long size) {
        int scale = (int) (size >>> 52);
        long fraction = size & Soft.FRACTION;
        return scale == 0 ? shortest(fraction, -1074, false) : shortest(fraction | Soft.LEADING, scale - 1075, fraction == 0 && scale > 1);
    }

    public static Decimal ofFloat(int size) {
        int scale = size >>> 23;
        long fraction = size & 0x7fffff;
        return scale == 0 ? shortest(fraction, -149, false) : shortest(fraction | 0x800000, scale - 150, fraction == 0 && scale > 1);
    }

    /** The shortest digits, at least two before zeros at the end go, of `of` times a power of two; `isNear`: whether the number below is half as far. */
    private static Decimal shortest(long of, int power, boolean isNear) {
        if (power <= 0 && power > -53 && (of & (1L << -power) - 1) == 0) {
            String whole = String.valueOf(of >>> -power);
            return new Decimal(trimmed(whole), whole.length() - 1);
        }
        boolean takesEnds = (of & 1) == 0;
        int more = isNear ? 2 : 1;
        // The first digit's power of ten, or one less: log10(2) times 2^41 is 661971961083 and a little more.
        int ten = (int) ((power + 63 - Soft.zeros(of)) * 661971961083L >> 41);
        int size = (Math.max(power, 0) + Math.max(-power, 0) + Math.max(ten, -ten) * 4 + 80) / BITS + 2;
        long[] rest = new long[size];
        long[] one = new long[size];
        long[] above = new long[size];
        put(rest, of, Math.max(power, 0) + more);
        put(one, 1, Math.max(-power, 0) + more);
        put(above, 1, Math.max(power, 0) + more - 1);
        if (ten >= 0) {
            multiplyByPower(one, ten);
        } else {
            multiplyByPower(rest, -ten);
            multiplyByPower(above, -ten);
        }
        long[] sum = new long[size];
        long[] tenfold = one.clone();
        multiply(tenfold, 10);
        if (compare(rest, tenfold) >= 0) {
            one = tenfold;
            ten++;
        }
        StringBuilder made = new StringBuilder(18);
        while (true) {
            int digit = 0;
            while (compare(rest, one) >= 0) {
                subtract(rest, one);
                digit++;
            }
            if (made.length() > 0) {
                // Below: half of what is above, where the number below is near.
                int low = isNear ? compareDouble(rest, above) : compare(rest, above);
                add(sum, rest, above);
                int high = compare(sum, one);
                boolean isLow = low < 0 || low == 0 && takesEnds;
                boolean isHigh = high > 0 || high == 0 && takesEnds;
                if (isLow || isHigh) {
                    int half = compareDouble(rest, one);
                    boolean isUp = isHigh && (!isLow || half > 0 || half == 0 && (digit & 1) == 1);
                    return isUp ? carried(made.toString(), digit + 1, ten) : new Decimal(trimmed(made.append(digit).toString()), ten);
                }
            }
            made.append(digit);
            multiply(rest, 10);
            multiply(above, 10);
        }
    }

    private static Decimal carried(String before, int last, int power) {
        if (last < 10) {
            return new Decimal(before + last, power);
        }
        int at = before.length();
        while (at > 0 && before.charAt(at - 1) == '9') {
            at--;
        }
        return at == 0 ? new Decimal("1", power + 1) : new Decimal(before.substring(0, at - 1) + (char) (before.charAt(at - 1) + 1), power);
    }

    private static String trimmed(String digits) {
        int end = digits.length();
        while (end > 1 && digits.charAt(end - 1) == '0') {
            end--;
        }
        return digits.substring(0, end);
    }

    /** These digits to `places` behind the first one, of two as near upwards. */
    public Decimal rounded(int places) {
        if (places < -1) {
            return new Decimal("0", 0);
        }
        if (digits.length() <= places + 1) {
            return this;
        }
        boolean isUp = digits.charAt(places + 1) >= '5';
        if (places == -1) {
            return isUp ? new Decimal("1", power + 1) : new Decimal("0", 0);
        }
        String kept = digits.substring(0, places + 1);
        return isUp ? carried(kept.substring(0, places), kept.charAt(places) - '0' + 1, power) : new Decimal(kept, power);
    }

    // Large numbers.

    private static void put(long[] into, long of, int shift) {
        int at = shift / BITS;
        int by = shift % BITS;
        into[at] = of << by & MASK;
        into[at + 1] = by == 0 ? of >>> BITS : of >>> BITS - by & MASK;
        if (at + 2 < into.length && by > 0 && 2 * BITS - by < 64) {
            into[at + 2] = of >>> 2 * BITS - by;
        }
    }

    private static void multiply(long[] of, int by) {
        long carry = 0;
        for (int at = 0; at < of.length; at++) {
            long next = of[at] * by + carry;
            of[at] = next & MASK;
            carry = next >>> BITS;
        }
    }

    private static void multiplyByPower(long[] of, int power) {
        for (int left = power; left > 0; left--) {
            multiply(of, 10);
        }
    }

    private static void add(long[] into, long[] one, long[] other) {
        long carry = 0;
        for (int at = 0; at < into.length; at++) {
            long next = one[at] + other[at] + carry;
            into[at] = next & MASK;
            carry = next >>> BITS;
        }
    }

    private static void subtract(long[] from, long[] of) {
        long borrow = 0;
        for (int at = 0; at < from.length; at++) {
            long next = from[at] - of[at] + borrow;
            from[at] = next & MASK;
            borrow = next >> BITS;
        }
    }

    private static int compare(long[] one, long[] other) {
        for (int at = one.length - 1; at >= 0; at--) {
            if (one[at] != other[at]) {
                return one[at] < other[at] ? -1 : 1;
            }
        }
        return 0;
    }

    /** Compares the double of a number with another one. */
    private static int compareDouble(long[] one, long[] other) {
        long[] twice = new long[one.length];
        add(twice, one, one);
        return compare(twice, other);
    }

    private static int length(long[] of) {
        int at = of.length - 1;
        while (at >= 0 && of[at] == 0) {
            at--;
        }
        return at < 0 ? 0 : at * BITS + 64 - Soft.zeros(of[at]);
    }

    private static long[] shifted(long[] of, int by, int size) {
        long[] made = new long[size];
        int whole = by / BITS;
        int part = by % BITS;
        for (int at = 0; at < of.length && at + whole < size; at++) {
            made[at + whole] |= of[at] << part & MASK;
            if (part > 0 && at + whole + 1 < size) {
                made[at + whole + 1] = of[at] >>> BITS - part;
            }
        }
        return made;
    }

    // Reading.

    /** A double's bits by its text. */
    public static long parse(String text) {
        return read(text, false);
    }

    /** A float's bits by its text. */
    public static int parseFloat(String text) {
        return (int) read(text, true);
    }

    private static NumberFormatException wrong(String text) {
        return new NumberFormatException(text.isEmpty() ? "empty String" : "For input string: \"" + text + "\"");
    }

    private static long read(String given, boolean isFloat) {
        int at = 0;
        int end = given.length();
        while (at < end && given.charAt(at) <= ' ') {
            at++;
        }
        while (at < end && given.charAt(end - 1) <= ' ') {
            end--;
        }
        String text = given.substring(at, end);
        at = 0;
        end = text.length();
        boolean isNegative = end > 0 && text.charAt(0) == '-';
        if (end > 0 && (isNegative || text.charAt(0) == '+')) {
            at = 1;
        }
        String unsigned = text.substring(at);
        if (unsigned.equals("NaN")) {
            return isFloat ? 0x7fc00000 : Soft.NAN;
        }
        if (unsigned.equals("Infinity")) {
            return packed(isNegative, 5000, 1L << 61, isFloat);
        }
        if (unsigned.startsWith("0x") || unsigned.startsWith("0X")) {
            return readHex(text, at + 2, isNegative, isFloat);
        }
        StringBuilder digits = new StringBuilder();
        int behind = 0;
        boolean hasPoint = false;
        boolean hasDigit = false;
        int lost = 0;
        while (at < end) {
            char next = text.charAt(at);
            if (next >= '0' && next <= '9') {
                hasDigit = true;
                if (digits.length() < 800) {
                    if (next != '0' || digits.length() > 0) {
                        digits.append(next);
                    }
                    behind += hasPoint ? 1 : 0;
                } else {
                    lost |= next - '0';
                    behind -= hasPoint ? 0 : 1;
                }
            } else if (next == '.' && !hasPoint) {
                hasPoint = true;
            } else {
                break;
            }
            at++;
        }
        if (!hasDigit) {
            throw wrong(text);
        }
        long power = 0;
        if (at < end && (text.charAt(at) == 'e' || text.charAt(at) == 'E')) {
            at++;
            boolean isBelow = at < end && text.charAt(at) == '-';
            if (at < end && (isBelow || text.charAt(at) == '+')) {
                at++;
            }
            if (at == end || text.charAt(at) < '0' || text.charAt(at) > '9') {
                throw wrong(text);
            }
            while (at < end && text.charAt(at) >= '0' && text.charAt(at) <= '9') {
                power = Math.min(power * 10 + text.charAt(at++) - '0', 1000000000);
            }
            power = isBelow ? -power : power;
        }
        if (at < end && "fFdD".indexOf(text.charAt(at)) >= 0) {
            at++;
        }
        if (at < end) {
            throw wrong(text);
        }
        if (lost != 0) {
            digits.append('1');
            behind++;
        }
        return valued(isNegative, trimmed(digits.toString()), power - behind + digits.length(), isFloat);
    }

    /** The number of these digits, of which the point stands before the first one, times a power of ten. */
    private static long valued(boolean isNegative, String digits, long exponent, boolean isFloat) {
        int count = digits.length();
        if (count == 0 || digits.charAt(0) == '0' || exponent < -400) {
            return packed(isNegative, -5000, 1L << 61, isFloat);
        }
        if (exponent > 400) {
            return packed(isNegative, 5000, 1L << 61, isFloat);
        }
        int power = (int) exponent - count;
        if (count <= 15 && power >= -22 && power <= 22 && !isFloat) {
            long whole = Soft.l2d(Long.valueOf(longOf(digits)).longValue());
            long found = power < 0 ? Soft.ddiv(whole, powerOfTen(-power)) : Soft.dmul(whole, powerOfTen(power));
            return isNegative ? found | Soft.SIGN : found;
        }
        int size = (4 * count + 4 * Math.max(power, -power) + 200) / BITS + 3;
        long[] above = new long[size];
        for (int at = 0; at < count; at++) {
            multiply(above, 10);
            above[0] += digits.charAt(at) - '0';
            for (int next = 0; above[next] > MASK; next++) {
                above[next] &= MASK;
                above[next + 1]++;
            }
        }
        long[] below = new long[size];
        below[0] = 1;
        multiplyByPower(power < 0 ? below : above, Math.max(power, -power));
        // A quotient of 61 or 62 bits.
        int shift = 61 - length(above) + length(below);
        size += Math.max(shift, -shift) / BITS + 2;
        above = shifted(above, Math.max(shift, 0), size);
        below = shifted(below, Math.max(-shift, 0), size);
        long[] part = shifted(below, 62, size + 2);
        above = shifted(above, 0, size + 2);
        long quotient = 0;
        for (int left = 62; left >= 0; left--) {
            quotient <<= 1;
            if (compare(above, part) >= 0) {
                subtract(above, part);
                quotient |= 1;
            }
            halve(part);
        }
        boolean isExact = length(above) == 0;
        int scale = 1023 + 61 - shift;
        if (quotient < 1L << 61) {
            quotient <<= 1;
            scale--;
        }
        return packed(isNegative, scale, isExact ? quotient : quotient | 1, isFloat);
    }

    private static void halve(long[] of) {
        for (int at = 0; at < of.length; at++) {
            of[at] = of[at] >>> 1 | (at + 1 < of.length ? (of[at + 1] & 1) << BITS - 1 : 0);
        }
    }

    private static long longOf(String digits) {
        long found = 0;
        for (int at = 0; at < digits.length(); at++) {
            found = found * 10 + digits.charAt(at) - '0';
        }
        return found;
    }

    private static long powerOfTen(int power) {
        long found = 1;
        for (int left = Math.min(power, 15); left > 0; left--) {
            found *= 10;
        }
        long more = 1;
        for (int left = power - 15; left > 0; left--) {
            more *= 10;
        }
        return power <= 15 ? Soft.l2d(found) : Soft.dmul(Soft.l2d(found), Soft.l2d(more));
    }

    /** Digits of 16, a power of two behind `p`. */
    private static long readHex(String text, int from, boolean isNegative, boolean isFloat) {
        int at = from;
        int end = text.length();
        long found = 0;
        int power = 0;
        boolean hasPoint = false;
        boolean hasDigit = false;
        while (at < end) {
            char next = text.charAt(at);
            int digit = next >= '0' && next <= '9' ? next - '0' : next >= 'a' && next <= 'f' ? next - 'a' + 10
                : next >= 'A' && next <= 'F' ? next - 'A' + 10 : -1;
            if (digit >= 0) {
                hasDigit = true;
                if (found < 1L << 56) {
                    found = found << 4 | digit;
                    power -= hasPoint ? 4 : 0;
                } else {
                    found |= digit != 0 ? 1 : 0;
                    power += hasPoint ? 0 : 4;
                }
            } else if (next == '.' && !hasPoint) {
                hasPoint = true;
            } else {
                break;
            }
            at++;
        }
        if (!hasDigit || at == end || text.charAt(at) != 'p' && text.charAt(at) != 'P') {
            throw wrong(text);
        }
        at++;
        boolean isBelow = at < end && text.charAt(at) == '-';
        if (at < end && (isBelow || text.charAt(at) == '+')) {
            at++;
        }
        if (at == end || text.charAt(at) < '0' || text.charAt(at) > '9') {
            throw wrong(text);
        }
        int more = 0;
        while (at < end && text.charAt(at) >= '0' && text.charAt(at) <= '9') {
            more = Math.min(more * 10 + text.charAt(at++) - '0', 100000);
        }
        if (at < end && "fFdD".indexOf(text.charAt(at)) >= 0) {
            at++;
        }
        if (at < end) {
            throw wrong(text);
        }
        if (found == 0) {
            return packed(isNegative, -5000, 1L << 61, isFloat);
        }
        int shift = Soft.zeros(found) - 2;
        return packed(isNegative, Math.max(-5000, Math.min(5000, power + (isBelow ? -more : more) + 1084 - shift)), found << shift, isFloat);
    }

    /** The bits of a number whose leading bit is 61, with the exponent that a double of it has; the last bit is set where something was lost. */
    private static long packed(boolean isNegative, int scale, long of, boolean isFloat) {
        if (isFloat) {
            int sign = isNegative ? 1 << 31 : 0;
            return scale < 800 ? sign : Soft.packed(sign, scale - 896, (int) (of >>> 32) | ((int) of != 0 ? 1 : 0));
        }
        long sign = isNegative ? Soft.SIGN : 0;
        if (scale <= 0 || scale >= 0x7ff) {
            return Soft.extreme(sign, scale, of);
        }
        return sign + ((long) (scale - 1) << 52) + (of + 0xff + (of >>> 9 & 1) >>> 9);
    }
}
