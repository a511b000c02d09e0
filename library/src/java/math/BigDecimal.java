package java.math;

/** Decimals of any size: a whole number, and how many of its digits stand behind the point. */
public class BigDecimal extends Number implements Comparable<BigDecimal> {
    public static final BigDecimal ZERO = new BigDecimal(BigInteger.ZERO, 0);
    public static final BigDecimal ONE = new BigDecimal(BigInteger.ONE, 0);
    public static final BigDecimal TEN = new BigDecimal(BigInteger.TEN, 0);
    public static final int ROUND_UP = 0;
    public static final int ROUND_DOWN = 1;
    public static final int ROUND_CEILING = 2;
    public static final int ROUND_FLOOR = 3;
    public static final int ROUND_HALF_UP = 4;
    public static final int ROUND_HALF_DOWN = 5;
    public static final int ROUND_HALF_EVEN = 6;
    public static final int ROUND_UNNECESSARY = 7;

    private final BigInteger digits;
    private final int scale;

    public BigDecimal(BigInteger digits, int scale) {
        if (digits == null) {
            throw new NullPointerException();
        }
        this.digits = digits;
        this.scale = scale;
    }

    private BigDecimal(BigDecimal of) {
        this(of.digits, of.scale);
    }

    public BigDecimal(BigInteger of) {
        this(of, 0);
    }

    public BigDecimal(BigInteger of, MathContext by) {
        this(new BigDecimal(of, 0).round(by));
    }

    public BigDecimal(BigInteger digits, int scale, MathContext by) {
        this(new BigDecimal(digits, scale).round(by));
    }

    public BigDecimal(int of) {
        this(BigInteger.valueOf(of), 0);
    }

    public BigDecimal(int of, MathContext by) {
        this(new BigDecimal(of).round(by));
    }

    public BigDecimal(long of) {
        this(BigInteger.valueOf(of), 0);
    }

    public BigDecimal(long of, MathContext by) {
        this(new BigDecimal(of).round(by));
    }

    public BigDecimal(double of) {
        this(exactly(of));
    }

    public BigDecimal(double of, MathContext by) {
        this(exactly(of).round(by));
    }

    public BigDecimal(String of) {
        this(read(of));
    }

    public BigDecimal(String of, MathContext by) {
        this(read(of).round(by));
    }

    public BigDecimal(char[] of) {
        this(read(new String(of)));
    }

    // Making.

    public static BigDecimal valueOf(long of) {
        return new BigDecimal(BigInteger.valueOf(of), 0);
    }

    public static BigDecimal valueOf(long digits, int scale) {
        return new BigDecimal(BigInteger.valueOf(digits), scale);
    }

    public static BigDecimal valueOf(double of) {
        return new BigDecimal(Double.toString(of));
    }

    private static BigDecimal exactly(double of) {
        if (Double.isNaN(of) || Double.isInfinite(of)) {
            throw new NumberFormatException("Infinite or NaN");
        }
        long bits = Double.doubleToLongBits(of);
        int by = (int) (bits >>> 52) & 0x7ff;
        long fraction = bits & (1L << 52) - 1;
        BigInteger whole = BigInteger.valueOf((bits < 0 ? -1 : 1) * (by == 0 ? fraction : fraction | 1L << 52));
        if (whole.signum() == 0) {
            return ZERO;
        }
        int twos = Math.max(by, 1) - 1075;
        int even = Math.min(whole.getLowestSetBit(), Math.max(0, -twos));
        whole = whole.shiftRight(even);
        twos += even;
        return twos >= 0 ? new BigDecimal(whole.shiftLeft(twos), 0) : new BigDecimal(whole.multiply(BigInteger.valueOf(5).pow(-twos)), -twos);
    }

    private static BigDecimal read(String of) {
        int end = Math.max(of.indexOf('e'), of.indexOf('E'));
        long exponent = 0;
        if (end >= 0) {
            String text = of.substring(end + 1);
            int first = !text.isEmpty() && (text.charAt(0) == '+' || text.charAt(0) == '-') ? 1 : 0;
            if (!areDigits(text, first) || text.length() == first) {
                throw new NumberFormatException();
            }
            int from = first;
            while (from < text.length() - 1 && text.charAt(from) == '0') {
                from++;
            }
            exponent = text.length() - from > 10 ? Long.MAX_VALUE : Long.parseLong(text.substring(from)) * (text.charAt(0) == '-' ? -1 : 1);
            if (exponent != (int) exponent) {
                throw new NumberFormatException("Exponent overflow.");
            }
        }
        String number = end < 0 ? of : of.substring(0, end);
        int point = number.indexOf('.');
        String whole = point < 0 ? number : number.substring(0, point) + number.substring(point + 1);
        int first = !whole.isEmpty() && (whole.charAt(0) == '+' || whole.charAt(0) == '-') ? 1 : 0;
        if (!areDigits(whole, first) || whole.length() == first || point == 0 && first == 1) {
            throw new NumberFormatException();
        }
        long scale = (point < 0 ? 0 : number.length() - point - 1) - exponent;
        if (scale != (int) scale) {
            throw new NumberFormatException("Scale out of range.");
        }
        return new BigDecimal(new BigInteger(whole), (int) scale);
    }

    private static boolean areDigits(String of, int from) {
        for (int at = from; at < of.length(); at++) {
            if (!Character.isDigit(of.charAt(at))) {
                return false;
            }
        }
        return true;
    }

    /** The scale that a long is, of digits that may be zero. */
    private static BigDecimal scaled(BigInteger digits, long scale) {
        if (scale == (int) scale) {
            return new BigDecimal(digits, (int) scale);
        }
        if (digits.signum() == 0) {
            return new BigDecimal(digits, scale > 0 ? Integer.MAX_VALUE : Integer.MIN_VALUE);
        }
        throw new ArithmeticException(scale > 0 ? "Underflow" : "Overflow");
    }

    private static BigInteger tens(long count) {
        if (count != (int) count) {
            throw new ArithmeticException("Overflow");
        }
        return BigInteger.TEN.pow((int) count);
    }

    /** Whether a size is rounded up that lies behind a smaller one; the rest is compared with the half of what is between them. */
    private static boolean isUp(RoundingMode mode, int sign, boolean isOdd, int half) {
        switch (mode) {
            case UP:
                return true;
            case DOWN:
                return false;
            case CEILING:
                return sign > 0;
            case FLOOR:
                return sign < 0;
            case HALF_UP:
                return half >= 0;
            case HALF_DOWN:
                return half > 0;
            case HALF_EVEN:
                return half > 0 || half == 0 && isOdd;
            default:
                throw new ArithmeticException("Rounding necessary");
        }
    }

    private static BigInteger rounded(BigInteger of, BigInteger by, RoundingMode mode) {
        BigInteger[] found = of.divideAndRemainder(by);
        if (found[1].signum() == 0) {
            return found[0];
        }
        int sign = of.signum() * by.signum();
        int half = found[1].abs().shiftLeft(1).compareTo(by.abs());
        return isUp(mode, sign, found[0].testBit(0), half) ? found[0].add(BigInteger.valueOf(sign)) : found[0];
    }

    /** Takes zeros from the end until the scale is the one that is preferred. */
    private BigDecimal stripped(long preferred) {
        BigInteger left = digits;
        long found = scale;
        while (found > preferred && left.signum() != 0) {
            BigInteger[] parts = left.divideAndRemainder(BigInteger.TEN);
            if (parts[1].signum() != 0) {
                break;
            }
            left = parts[0];
            found--;
        }
        return scaled(left, found);
    }

    // Arithmetic.

    public BigDecimal add(BigDecimal other) {
        int most = Math.max(scale, other.scale);
        return new BigDecimal(digitsAt(most).add(other.digitsAt(most)), most);
    }

    private BigInteger digitsAt(int most) {
        return most == scale ? digits : digits.multiply(tens((long) most - scale));
    }

    public BigDecimal add(BigDecimal other, MathContext by) {
        if (by.getPrecision() == 0 || signum() != 0 && other.signum() != 0) {
            return add(other).round(by);
        }
        int preferred = Math.max(scale, other.scale);
        if (signum() == 0 && other.signum() == 0) {
            return new BigDecimal(BigInteger.ZERO, preferred);
        }
        BigDecimal found = (signum() == 0 ? other : this).round(by);
        if (found.scale >= preferred) {
            return found.stripped(preferred);
        }
        int room = by.getPrecision() - found.precision();
        return found.setScale(found.scale + Math.min(room, preferred - found.scale));
    }

    public BigDecimal subtract(BigDecimal other) {
        return add(other.negate());
    }

    public BigDecimal subtract(BigDecimal other, MathContext by) {
        return add(other.negate(), by);
    }

    public BigDecimal multiply(BigDecimal other) {
        return scaled(digits.multiply(other.digits), (long) scale + other.scale);
    }

    public BigDecimal multiply(BigDecimal other, MathContext by) {
        return multiply(other).round(by);
    }

    public BigDecimal divide(BigDecimal by, int to, RoundingMode mode) {
        long shift = (long) to + by.scale - scale;
        BigInteger of = shift > 0 ? digits.multiply(tens(shift)) : digits;
        return new BigDecimal(rounded(of, shift < 0 ? by.digits.multiply(tens(-shift)) : by.digits, mode), to);
    }

    public BigDecimal divide(BigDecimal by, int to, int mode) {
        if (mode < ROUND_UP || mode > ROUND_UNNECESSARY) {
            throw new IllegalArgumentException("Invalid rounding mode");
        }
        return divide(by, to, RoundingMode.valueOf(mode));
    }

    public BigDecimal divide(BigDecimal by, RoundingMode mode) {
        return divide(by, scale, mode);
    }

    public BigDecimal divide(BigDecimal by, int mode) {
        return divide(by, scale, mode);
    }

    public BigDecimal divide(BigDecimal by) {
        judgeDivisor(by);
        long preferred = (long) scale - by.scale;
        if (signum() == 0) {
            return scaled(BigInteger.ZERO, preferred);
        }
        MathContext exact = new MathContext((int) Math.min(precision() + (long) Math.ceil(10.0 * by.precision() / 3.0), Integer.MAX_VALUE),
            RoundingMode.UNNECESSARY);
        BigDecimal found;
        try {
            found = divide(by, exact);
        } catch (ArithmeticException inexact) {
            throw new ArithmeticException("Non-terminating decimal expansion; no exact representable decimal result.");
        }
        return preferred > found.scale ? found.setScale((int) preferred, RoundingMode.UNNECESSARY) : found;
    }

    private void judgeDivisor(BigDecimal by) {
        if (by.signum() == 0) {
            throw new ArithmeticException(signum() == 0 ? "Division undefined" : "Division by zero");
        }
    }

    public BigDecimal divide(BigDecimal by, MathContext in) {
        if (in.getPrecision() == 0) {
            return divide(by);
        }
        judgeDivisor(by);
        long preferred = (long) scale - by.scale;
        if (signum() == 0) {
            return scaled(BigInteger.ZERO, preferred);
        }
        // So many digits behind the point that the quotient has those that are wanted, or one more.
        long shift = (long) in.getPrecision() + by.precision() - precision();
        BigInteger of = shift > 0 ? digits.multiply(tens(shift)) : digits;
        BigInteger divisor = shift < 0 ? by.digits.multiply(tens(-shift)) : by.digits;
        if (of.abs().compareTo(divisor.abs().multiply(tens(in.getPrecision()))) >= 0) {
            divisor = divisor.multiply(BigInteger.TEN);
            shift--;
        }
        BigDecimal found = scaled(rounded(of, divisor, in.getRoundingMode()), preferred + shift).round(in);
        return of.remainder(divisor).signum() == 0 ? found.stripped(preferred) : found;
    }

    public BigDecimal divideToIntegralValue(BigDecimal by) {
        judgeDivisor(by);
        long preferred = (long) scale - by.scale;
        int shown = (int) Math.max(Math.min(preferred, Integer.MAX_VALUE), Integer.MIN_VALUE);
        BigDecimal found = divide(by, 0, RoundingMode.DOWN);
        return found.signum() == 0 ? new BigDecimal(BigInteger.ZERO, shown) : preferred < 0 ? found.stripped(preferred) : found.setScale(shown);
    }

    public BigDecimal remainder(BigDecimal by) {
        return divideAndRemainder(by)[1];
    }

    public BigDecimal[] divideAndRemainder(BigDecimal by) {
        BigDecimal found = divideToIntegralValue(by);
        return new BigDecimal[] {found, subtract(found.multiply(by))};
    }

    public BigDecimal pow(int by) {
        if (by < 0 || by > 999999999) {
            throw new ArithmeticException("Invalid operation");
        }
        return scaled(digits.pow(by), (long) scale * by);
    }

    public BigDecimal pow(int by, MathContext in) {
        if (in.getPrecision() == 0) {
            return pow(by);
        }
        if (by < -999999999 || by > 999999999) {
            throw new ArithmeticException("Invalid operation");
        }
        if (by == 0) {
            return ONE;
        }
        int size = Math.abs(by);
        int length = 0;
        for (int left = size; left > 0; left /= 10) {
            length++;
        }
        if (length > in.getPrecision()) {
            throw new ArithmeticException("Invalid operation");
        }
        MathContext work = new MathContext(in.getPrecision() + length + 1, in.getRoundingMode());
        BigDecimal found = ONE;
        boolean isBegun = false;
        for (int left = size << 1, at = 1;; at++) {
            if (left < 0) {
                isBegun = true;
                found = found.multiply(this, work);
            }
            if (at == 31) {
                break;
            }
            left <<= 1;
            if (isBegun) {
                found = found.multiply(found, work);
            }
        }
        return (by < 0 ? ONE.divide(found, work) : found).round(in);
    }

    public BigDecimal abs() {
        return signum() < 0 ? negate() : this;
    }

    public BigDecimal abs(MathContext by) {
        return abs().round(by);
    }

    public BigDecimal negate() {
        return new BigDecimal(digits.negate(), scale);
    }

    public BigDecimal negate(MathContext by) {
        return negate().round(by);
    }

    public BigDecimal plus() {
        return this;
    }

    public BigDecimal plus(MathContext by) {
        return round(by);
    }

    public BigDecimal round(MathContext by) {
        BigDecimal found = this;
        // Rounding up can make one digit more.
        while (by.getPrecision() > 0 && found.precision() > by.getPrecision()) {
            int less = found.precision() - by.getPrecision();
            found = scaled(rounded(found.digits, tens(less), by.getRoundingMode()), (long) found.scale - less);
        }
        return found;
    }

    public int signum() {
        return digits.signum();
    }

    public int scale() {
        return scale;
    }

    public int precision() {
        return signum() == 0 ? 1 : digits.abs().toString().length();
    }

    public BigInteger unscaledValue() {
        return digits;
    }

    public BigDecimal setScale(int to, RoundingMode mode) {
        if (to == scale) {
            return this;
        }
        return to > scale ? new BigDecimal(digitsAt(to), to) : new BigDecimal(rounded(digits, tens((long) scale - to), mode), to);
    }

    public BigDecimal setScale(int to, int mode) {
        if (mode < ROUND_UP || mode > ROUND_UNNECESSARY) {
            throw new IllegalArgumentException("Invalid rounding mode");
        }
        return setScale(to, RoundingMode.valueOf(mode));
    }

    public BigDecimal setScale(int to) {
        return setScale(to, RoundingMode.UNNECESSARY);
    }

    public BigDecimal movePointLeft(int by) {
        return by == 0 ? this : whole((long) scale + by);
    }

    public BigDecimal movePointRight(int by) {
        return by == 0 ? this : whole((long) scale - by);
    }

    private BigDecimal whole(long to) {
        BigDecimal found = scaled(digits, to);
        return found.scale < 0 ? found.setScale(0) : found;
    }

    public BigDecimal scaleByPowerOfTen(int by) {
        return scaled(digits, (long) scale - by);
    }

    public BigDecimal stripTrailingZeros() {
        return signum() == 0 ? ZERO : stripped(Long.MIN_VALUE);
    }

    public BigDecimal ulp() {
        return new BigDecimal(BigInteger.ONE, scale);
    }

    // Numbers, texts, comparisons.

    @Override
    public int compareTo(BigDecimal other) {
        if (signum() != other.signum() || signum() == 0) {
            return Integer.compare(signum(), other.signum());
        }
        // Which is larger may be told by the place of the first digit.
        int places = Long.compare((long) precision() - scale, (long) other.precision() - other.scale);
        int most = Math.max(scale, other.scale);
        return places != 0 ? places * signum() : digitsAt(most).compareTo(other.digitsAt(most));
    }

    @Override
    public boolean equals(Object other) {
        return other instanceof BigDecimal && ((BigDecimal) other).scale == scale && ((BigDecimal) other).digits.equals(digits);
    }

    public BigDecimal min(BigDecimal other) {
        return compareTo(other) <= 0 ? this : other;
    }

    public BigDecimal max(BigDecimal other) {
        return compareTo(other) >= 0 ? this : other;
    }

    @Override
    public int hashCode() {
        return 31 * digits.hashCode() + scale;
    }

    @Override
    public String toString() {
        return shown(false);
    }

    public String toEngineeringString() {
        return shown(true);
    }

    private String shown(boolean byThrees) {
        String sign = signum() < 0 ? "-" : "";
        String text = digits.abs().toString();
        long exponent = (long) text.length() - 1 - scale;
        if (scale == 0 || scale > 0 && exponent >= -6) {
            return toPlainString();
        }
        int before = 1;
        if (byThrees) {
            before = (int) ((exponent % 3 + 3) % 3);
            exponent -= before++;
            if (signum() == 0) {
                text = before == 1 ? "0" : before == 2 ? "000" : "00";
                exponent += before == 1 ? 0 : 3;
                before = 1;
            }
            while (text.length() < before) {
                text += "0";
            }
        }
        String number = text.substring(0, before) + (text.length() > before ? "." + text.substring(before) : "");
        return sign + number + (exponent == 0 ? "" : "E" + (exponent > 0 ? "+" : "") + exponent);
    }

    public String toPlainString() {
        String sign = signum() < 0 ? "-" : "";
        StringBuilder text = new StringBuilder();
        String shown = digits.abs().toString();
        for (int at = shown.length(); at <= scale; at++) {
            text.append('0');
        }
        text.append(shown);
        for (int at = scale; at < 0 && signum() != 0; at++) {
            text.append('0');
        }
        String whole = text.toString();
        int point = whole.length() - scale;
        return scale <= 0 ? sign + whole : sign + whole.substring(0, point) + "." + whole.substring(point);
    }

    public BigInteger toBigInteger() {
        return setScale(0, RoundingMode.DOWN).digits;
    }

    public BigInteger toBigIntegerExact() {
        return setScale(0).digits;
    }

    @Override
    public long longValue() {
        return toBigInteger().longValue();
    }

    @Override
    public int intValue() {
        return toBigInteger().intValue();
    }

    private long exactly(int bits) {
        if (signum() != 0 && (long) precision() - scale > 19) {
            throw new ArithmeticException("Overflow");
        }
        BigInteger found = toBigIntegerExact();
        if (found.bitLength() > bits) {
            throw new ArithmeticException("Overflow");
        }
        return found.longValue();
    }

    public long longValueExact() {
        return exactly(63);
    }

    public int intValueExact() {
        return (int) exactly(31);
    }

    public short shortValueExact() {
        return (short) exactly(15);
    }

    public byte byteValueExact() {
        return (byte) exactly(7);
    }

    @Override
    public double doubleValue() {
        return Double.parseDouble(toString());
    }

    @Override
    public float floatValue() {
        return Float.parseFloat(toString());
    }
}
