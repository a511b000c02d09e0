package floats;

import java.math.BigDecimal;
import java.math.MathContext;
import java.math.RoundingMode;
import java.util.Random;
import java.util.function.DoubleBinaryOperator;
import java.util.function.DoubleUnaryOperator;
import more.floats.Decimal;
import more.floats.Functions;
import more.floats.Soft;

/** Functions beside StrictMath, bit by bit, and texts beside Double's own, where the JDK is one from 19 on, else beside what these document. */
public final class FunctionsCheck {
    static final Random RANDOM = new Random(88);
    static final boolean IS_SHORTEST = Runtime.version().feature() >= 19;
    static int count;
    static int wrong;

    static double next() {
        switch (RANDOM.nextInt(6)) {
            case 0:
                return Double.longBitsToDouble(RANDOM.nextLong());
            case 1:
                return (RANDOM.nextInt(20001) - 10000) / 100.0;
            case 2:
                return (RANDOM.nextDouble() - 0.5) * 4;
            case 3:
                return RANDOM.nextGaussian() * 300;
            case 4:
                return RANDOM.nextInt(200) * Math.PI / 2 + (RANDOM.nextInt(7) - 3) * Math.ulp(RANDOM.nextInt(200) * 1.6);
            default:
                return Double.longBitsToDouble(SoftCheck.SPECIAL[RANDOM.nextInt(SoftCheck.SPECIAL.length)]);
        }
    }

    static void one(String name, DoubleUnaryOperator have, DoubleUnaryOperator want) {
        int bad = 0;
        for (int at = 0; at < count + SoftCheck.SPECIAL.length; at++) {
            double x = at < SoftCheck.SPECIAL.length ? Double.longBitsToDouble(SoftCheck.SPECIAL[at]) : next();
            double a = have.applyAsDouble(x);
            double b = want.applyAsDouble(x);
            if (Double.doubleToLongBits(a) != Double.doubleToLongBits(b) && bad++ < 3) {
                System.out.println(name + " " + x + " " + Long.toHexString(Double.doubleToRawLongBits(x)) + ": " + a + " and not " + b);
            }
        }
        wrong += bad;
        System.out.println(name + " wrong " + bad);
    }

    static void two(String name, DoubleBinaryOperator have, DoubleBinaryOperator want) {
        int bad = 0;
        for (int at = 0; at < count; at++) {
            double x = next();
            int kind = RANDOM.nextInt(8);
            double y = kind < 2 ? x * (1 + RANDOM.nextInt(3) * 1e-16) : kind >= 4 ? next()
                : Double.longBitsToDouble(SoftCheck.next(Double.doubleToRawLongBits(x)));
            double a = have.applyAsDouble(x, y);
            double b = want.applyAsDouble(x, y);
            if (Double.doubleToLongBits(a) != Double.doubleToLongBits(b) && bad++ < 3) {
                System.out.println(name + " " + x + " " + y + ": " + a + " and not " + b);
            }
        }
        wrong += bad;
        System.out.println(name + " wrong " + bad);
    }

    /** A number of steps that a double stands for, mostly one that matters. */
    static int steps(double of) {
        long bits = Double.doubleToLongBits(of) * 0x9e3779b97f4a7c15L;
        return (int) (bits >>> 32) >> (int) (bits & 31);
    }

    static DoubleUnaryOperator bits(java.util.function.LongUnaryOperator of) {
        return x -> Double.longBitsToDouble(of.applyAsLong(Double.doubleToRawLongBits(x)));
    }

    /**
     * Whether a text is the one that Double.toString documents from Java 19 on: of the decimals with the fewest digits, but two at least, that are
     * read as the number, the nearest. The numbers between the two others are read as this one, and these too where its last bit is zero.
     */
    static boolean isShortest(String text, BigDecimal of, BigDecimal below, BigDecimal above, boolean isEven) {
        BigDecimal told = new BigDecimal(text).stripTrailingZeros();
        int digits = Math.max(2, told.precision());
        if (!text.equals(shown(told)) || !isRead(told, below, above, isEven)) {
            return false;
        }
        for (RoundingMode mode : new RoundingMode[] {RoundingMode.FLOOR, RoundingMode.CEILING}) {
            BigDecimal other = of.round(new MathContext(digits, mode));
            int nearer = other.subtract(of).abs().compareTo(told.subtract(of).abs());
            boolean isOdd = told.precision() == digits && told.unscaledValue().testBit(0);
            if (isRead(other, below, above, isEven) && other.compareTo(told) != 0 && (nearer < 0 || nearer == 0 && isOdd)
                || digits > 2 && isRead(of.round(new MathContext(digits - 1, mode)), below, above, isEven)) {
                return false;
            }
        }
        return true;
    }

    static boolean isRead(BigDecimal decimal, BigDecimal below, BigDecimal above, boolean isEven) {
        int low = decimal.compareTo(below);
        int high = decimal.compareTo(above);
        return (low > 0 || low == 0 && isEven) && (high < 0 || high == 0 && isEven);
    }

    static String shown(BigDecimal of) {
        BigDecimal size = of.abs();
        if (size.compareTo(new BigDecimal("0.001")) >= 0 && size.compareTo(new BigDecimal("10000000")) < 0) {
            String plain = of.toPlainString();
            return plain.contains(".") ? plain : plain + ".0";
        }
        String digits = size.unscaledValue().toString();
        String rest = digits.length() > 1 ? digits.substring(1) : "0";
        return (of.signum() < 0 ? "-" : "") + digits.charAt(0) + "." + rest + "E" + (size.precision() - size.scale() - 1);
    }

    static boolean isText(String text, double of) {
        if (IS_SHORTEST || of != of || of == 0 || Double.isInfinite(of)) {
            return text.equals(Double.toString(of));
        }
        BigDecimal exact = new BigDecimal(of);
        BigDecimal half = new BigDecimal(Math.ulp(of)).divide(new BigDecimal(2));
        long bits = Double.doubleToRawLongBits(Math.abs(of));
        BigDecimal inner = bits << 12 == 0 && bits > 1L << 52 ? half.divide(new BigDecimal(2)) : half;
        return isShortest(text, exact, exact.subtract(of > 0 ? inner : half), exact.add(of > 0 ? half : inner), (bits & 1) == 0);
    }

    static boolean isText(String text, float of) {
        if (IS_SHORTEST || of != of || of == 0 || Float.isInfinite(of)) {
            return text.equals(Float.toString(of));
        }
        BigDecimal exact = new BigDecimal(of);
        BigDecimal half = new BigDecimal(Math.ulp(of)).divide(new BigDecimal(2));
        int bits = Float.floatToRawIntBits(Math.abs(of));
        BigDecimal inner = bits << 9 == 0 && bits > 1 << 23 ? half.divide(new BigDecimal(2)) : half;
        return isShortest(text, exact, exact.subtract(of > 0 ? inner : half), exact.add(of > 0 ? half : inner), (bits & 1) == 0);
    }

    static void texts() {
        int bad = 0;
        for (int at = 0; at < count + SoftCheck.SPECIAL.length; at++) {
            double x = at < SoftCheck.SPECIAL.length ? Double.longBitsToDouble(SoftCheck.SPECIAL[at]) : next();
            String text = Decimal.text(Double.doubleToRawLongBits(x));
            if (!isText(text, x) && bad++ < 10) {
                System.out.println("text " + text + " and not " + x);
            }
            String longer = new java.math.BigDecimal(x == x && Math.abs(x) < 1e300 ? x : 0.5).toString();
            String other = RANDOM.nextInt(2) == 0 ? longer : text.length() > 3 && !text.contains("N") && !text.contains("I") && text.indexOf('E') < 0
                ? text.substring(0, text.length() - 1) + RANDOM.nextInt(1000000000) : text;
            for (String read : new String[] {text, other}) {
                if (Decimal.parse(read) != Double.doubleToLongBits(Double.parseDouble(read)) && bad++ < 10) {
                    System.out.println("read " + read);
                }
                if (Decimal.parseFloat(read) != Float.floatToIntBits(Float.parseFloat(read)) && bad++ < 10) {
                    System.out.println("read as a float " + read);
                }
            }
            float f = Float.intBitsToFloat(RANDOM.nextInt());
            String little = Decimal.textOfFloat(Float.floatToRawIntBits(f));
            if (!isText(little, f) && bad++ < 10) {
                System.out.println("text " + little + " and not " + f);
            }
        }
        for (String read : new String[] {"0x1p3", "0x1.8p-1", "0x0.0000000000001p-1022", "0x1.fffffffffffffp1023", "0x1.00000000000008p0", "0x1.000000000000081p0",
            "0x.8p1", "0x1.fffffeffffffp127", "1e400", "1e-400", "-0", "+1.", ".5f", " 7d ", "2.4703282292062327e-324", "2.4703282292062328e-324",
            "2.2250738585072011e-308", "1.7976931348623158e308", "1.7976931348623159e308", "9007199254740993", "9007199254740993.00000000000000000000000000000000001"}) {
            if (Decimal.parse(read) != Double.doubleToLongBits(Double.parseDouble(read)) || Decimal.parseFloat(read) != Float.floatToIntBits(Float.parseFloat(read))) {
                bad++;
                System.out.println("read " + read);
            }
        }
        wrong += bad;
        System.out.println("texts wrong " + bad);
    }

    /** A float that a double stands for: of any bits, or a special one. */
    static float f(double of) {
        int bits = (int) (Double.doubleToLongBits(of) * 0x9e3779b97f4a7c15L >>> 32);
        return Float.intBitsToFloat(bits % 8 == 0 ? SoftCheck.SPECIAL_F[(bits >>> 3) % SoftCheck.SPECIAL_F.length] : bits);
    }

    static double ofText(String of) {
        return of.hashCode();
    }

    /** What Math has besides, of doubles and of floats. */
    static void others() {
        one("abs", more.floats.java.lang.Math::abs, Math::abs);
        one("signum", more.floats.java.lang.Math::signum, Math::signum);
        one("ulp", more.floats.java.lang.Math::ulp, Math::ulp);
        one("nextUp", more.floats.java.lang.Math::nextUp, Math::nextUp);
        one("nextDown", more.floats.java.lang.Math::nextDown, Math::nextDown);
        one("getExponent", more.floats.java.lang.Math::getExponent, Math::getExponent);
        one("toRadians", more.floats.java.lang.Math::toRadians, Math::toRadians);
        one("toDegrees", more.floats.java.lang.Math::toDegrees, Math::toDegrees);
        two("max", more.floats.java.lang.Math::max, Math::max);
        two("min", more.floats.java.lang.Math::min, Math::min);
        two("copySign", (x, y) -> more.floats.java.lang.Math.copySign(x, y), (x, y) -> Math.copySign(x, y));
        two("nextAfter", (x, y) -> more.floats.java.lang.Math.nextAfter(x, y), (x, y) -> Math.nextAfter(x, y));
        one("abs of floats", x -> more.floats.java.lang.Math.abs(f(x)), x -> Math.abs(f(x)));
        one("signum of floats", x -> more.floats.java.lang.Math.signum(f(x)), x -> Math.signum(f(x)));
        one("ulp of floats", x -> more.floats.java.lang.Math.ulp(f(x)), x -> Math.ulp(f(x)));
        one("nextUp of floats", x -> more.floats.java.lang.Math.nextUp(f(x)), x -> Math.nextUp(f(x)));
        one("nextDown of floats", x -> more.floats.java.lang.Math.nextDown(f(x)), x -> Math.nextDown(f(x)));
        one("getExponent of floats", x -> more.floats.java.lang.Math.getExponent(f(x)), x -> Math.getExponent(f(x)));
        one("round of floats", x -> more.floats.java.lang.Math.round(f(x)), x -> Math.round(f(x)));
        two("max of floats", (x, y) -> more.floats.java.lang.Math.max(f(x), f(y)), (x, y) -> Math.max(f(x), f(y)));
        two("min of floats", (x, y) -> more.floats.java.lang.Math.min(f(x), f(y)), (x, y) -> Math.min(f(x), f(y)));
        two("copySign of floats", (x, y) -> more.floats.java.lang.Math.copySign(f(x), f(y)), (x, y) -> Math.copySign(f(x), f(y)));
        two("nextAfter of floats", (x, y) -> more.floats.java.lang.Math.nextAfter(f(x), y), (x, y) -> Math.nextAfter(f(x), y));
        two("scalb of floats", (x, y) -> more.floats.java.lang.Math.scalb(f(x), steps(y)), (x, y) -> Math.scalb(f(x), steps(y)));
        one("hashCode", x -> copied.Double.hashCode(x), x -> Double.hashCode(x));
        one("toHexString", x -> ofText(copied.Double.toHexString(x)), x -> ofText(Double.toHexString(x)));
        one("is", x -> kind(copied.Double.isNaN(x), copied.Double.isInfinite(x), copied.Double.isFinite(x)),
            x -> kind(Double.isNaN(x), Double.isInfinite(x), Double.isFinite(x)));
        two("compare", (x, y) -> copied.Double.compare(x, y), (x, y) -> Double.compare(x, y));
        two("equals", (x, y) -> kind(new copied.Double(x).equals(new copied.Double(y)), true, true),
            (x, y) -> kind(((Double) x).equals(y), true, true));
        one("hashCode of floats", x -> copied.Float.hashCode(f(x)), x -> Float.hashCode(f(x)));
        one("toHexString of floats", x -> ofText(copied.Float.toHexString(f(x))), x -> ofText(Float.toHexString(f(x))));
        one("is of floats", x -> kind(copied.Float.isNaN(f(x)), copied.Float.isInfinite(f(x)), copied.Float.isFinite(f(x))),
            x -> kind(Float.isNaN(f(x)), Float.isInfinite(f(x)), Float.isFinite(f(x))));
        two("compare of floats", (x, y) -> copied.Float.compare(f(x), f(y)), (x, y) -> Float.compare(f(x), f(y)));
    }

    static double kind(boolean one, boolean other, boolean third) {
        return (one ? 1 : 0) + (other ? 2 : 0) + (third ? 4 : 0);
    }

    public static void main(String[] words) {
        count = Integer.parseInt(words[0]);
        one("sin", Functions::sin, StrictMath::sin);
        one("cos", Functions::cos, StrictMath::cos);
        one("tan", Functions::tan, StrictMath::tan);
        one("asin", Functions::asin, StrictMath::asin);
        one("acos", Functions::acos, StrictMath::acos);
        one("atan", Functions::atan, StrictMath::atan);
        one("exp", Functions::exp, StrictMath::exp);
        one("expm1", Functions::expm1, StrictMath::expm1);
        one("log", Functions::log, StrictMath::log);
        one("log10", Functions::log10, StrictMath::log10);
        one("log1p", Functions::log1p, StrictMath::log1p);
        one("sinh", Functions::sinh, StrictMath::sinh);
        one("cosh", Functions::cosh, StrictMath::cosh);
        one("tanh", Functions::tanh, StrictMath::tanh);
        one("cbrt", Functions::cbrt, StrictMath::cbrt);
        one("floor", bits(Soft::floor), StrictMath::floor);
        one("ceil", bits(Soft::ceil), StrictMath::ceil);
        one("rint", bits(Soft::rint), StrictMath::rint);
        one("round", x -> Soft.round(Double.doubleToRawLongBits(x)), StrictMath::round);
        two("scalb", (x, y) -> Functions.scalb(x, steps(y)), (x, y) -> StrictMath.scalb(x, steps(y)));
        two("atan2", Functions::atan2, StrictMath::atan2);
        two("pow", Functions::pow, StrictMath::pow);
        two("hypot", Functions::hypot, StrictMath::hypot);
        two("remainder", Functions::remainder, StrictMath::IEEEremainder);
        others();
        texts();
        System.exit(wrong == 0 ? 0 : 1);
    }
}
