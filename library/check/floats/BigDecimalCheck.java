package floats;

import java.math.BigDecimal;
import java.math.BigInteger;
import java.math.MathContext;
import java.math.RoundingMode;
import java.util.Arrays;
import java.util.Random;
import java.util.function.BiFunction;
import java.util.function.Function;
import java.util.function.Supplier;

/** Members of BigDecimal beside a JDK's own, on random numbers of up to forty digits; valueOf beside the shortest text, which a JDK has from 19 on. */
public final class BigDecimalCheck {
    static final Random RANDOM = new Random(90);
    static int wrong;

    static String next() {
        StringBuilder made = new StringBuilder(RANDOM.nextInt(3) == 0 ? "-" : "");
        int count = 1 + RANDOM.nextInt(RANDOM.nextInt(40) + 1);
        int kind = RANDOM.nextInt(4);
        for (int at = 0; at < count; at++) {
            made.append(kind == 0 && at > 0 ? RANDOM.nextInt(20) == 0 ? 5 : 0 : kind == 1 ? 9 : RANDOM.nextInt(10));
        }
        if (RANDOM.nextInt(3) > 0) {
            made.insert(made.length() - RANDOM.nextInt(count), '.');
        }
        return RANDOM.nextInt(4) == 0 ? made + "E" + (RANDOM.nextInt(60) - 30) : made.toString();
    }

    static Object told(Supplier<Object> of) {
        try {
            Object found = of.get();
            return found instanceof Object[] ? Arrays.toString((Object[]) found) : String.valueOf(found);
        } catch (ArithmeticException failure) {
            return failure.getMessage() == null || failure.getMessage().endsWith("by zero") ? "by zero" : failure.toString();
        } catch (NumberFormatException failure) {
            return "NumberFormatException";
        }
    }

    static void same(String name, Object one, Object other, Object have, Object want) {
        if (!have.equals(want) && wrong++ < 40) {
            System.out.println(name + " " + one + " " + other + ": " + have + " and not " + want);
        }
    }

    static void one(String name, String of, Function<copied.BigDecimal, Object> have, Function<BigDecimal, Object> want) {
        same(name, of, "", told(() -> have.apply(new copied.BigDecimal(of))), told(() -> want.apply(new BigDecimal(of))));
    }

    static void two(String name, String of, String other, BiFunction<copied.BigDecimal, copied.BigDecimal, Object> have,
            BiFunction<BigDecimal, BigDecimal, Object> want) {
        same(name, of, other, told(() -> have.apply(new copied.BigDecimal(of), new copied.BigDecimal(other))),
            told(() -> want.apply(new BigDecimal(of), new BigDecimal(other))));
    }

    static void numbers(String a, String b) {
        two("add", a, b, (x, y) -> x.add(y), (x, y) -> x.add(y));
        two("subtract", a, b, (x, y) -> x.subtract(y), (x, y) -> x.subtract(y));
        two("multiply", a, b, (x, y) -> x.multiply(y), (x, y) -> x.multiply(y));
        two("divide", a, b, (x, y) -> x.divide(y), (x, y) -> x.divide(y));
        two("divideAndRemainder", a, b, (x, y) -> x.divideAndRemainder(y), (x, y) -> x.divideAndRemainder(y));
        two("remainder", a, b, (x, y) -> x.remainder(y), (x, y) -> x.remainder(y));
        two("compareTo", a, b, (x, y) -> x.compareTo(y), (x, y) -> x.compareTo(y));
        two("equals", a, b, (x, y) -> x.equals(y), (x, y) -> x.equals(y));
        two("min", a, b, (x, y) -> x.min(y), (x, y) -> x.min(y));
        two("max", a, b, (x, y) -> x.max(y), (x, y) -> x.max(y));
        one("texts", a, x -> x + " " + x.toPlainString() + " " + x.toEngineeringString(), x -> x + " " + x.toPlainString() + " " + x.toEngineeringString());
        one("parts", a, x -> x.unscaledValue() + " " + x.scale() + " " + x.precision() + " " + x.signum() + " " + x.ulp() + " " + x.hashCode(),
            x -> x.unscaledValue() + " " + x.scale() + " " + x.precision() + " " + x.signum() + " " + x.ulp() + " " + x.hashCode());
        one("numbers", a, x -> x.intValue() + " " + x.longValue() + " " + x.doubleValue() + " " + x.floatValue() + " " + x.toBigInteger(),
            x -> x.intValue() + " " + x.longValue() + " " + x.doubleValue() + " " + x.floatValue() + " " + x.toBigInteger());
        one("exact", a, x -> x.intValueExact(), x -> x.intValueExact());
        one("exact whole", a, x -> x.toBigIntegerExact(), x -> x.toBigIntegerExact());
        one("stripTrailingZeros", a, x -> x.stripTrailingZeros(), x -> x.stripTrailingZeros());
        one("negate", a, x -> x.negate().abs() + " " + x.negate() + " " + x.plus(), x -> x.negate().abs() + " " + x.negate() + " " + x.plus());
    }

    static void rounded(String a, String b, int by, int digits, int at) {
        RoundingMode mode = RoundingMode.values()[at];
        copied.RoundingMode ours = copied.RoundingMode.values()[at];
        MathContext to = new MathContext(digits, mode);
        copied.MathContext copy = new copied.MathContext(digits, ours);
        String more = b + " " + by + " " + to;
        two("divide at " + more, a, b, (x, y) -> x.divide(y, by, ours), (x, y) -> x.divide(y, by, mode));
        two("divide to " + more, a, b, (x, y) -> x.divide(y, ours), (x, y) -> x.divide(y, mode));
        two("divide in " + more, a, b, (x, y) -> x.divide(y, copy), (x, y) -> x.divide(y, to));
        two("add in " + more, a, b, (x, y) -> x.add(y, copy), (x, y) -> x.add(y, to));
        two("subtract in " + more, a, b, (x, y) -> x.subtract(y, copy), (x, y) -> x.subtract(y, to));
        two("multiply in " + more, a, b, (x, y) -> x.multiply(y, copy), (x, y) -> x.multiply(y, to));
        one("round " + more, a, x -> x.round(copy), x -> x.round(to));
        one("setScale " + more, a, x -> x.setScale(by, ours), x -> x.setScale(by, mode));
        one("moved " + more, a, x -> x.movePointLeft(by) + " " + x.movePointRight(by) + " " + x.scaleByPowerOfTen(by),
            x -> x.movePointLeft(by) + " " + x.movePointRight(by) + " " + x.scaleByPowerOfTen(by));
        one("pow " + by, a, x -> x.pow(by), x -> x.pow(by));
        one("pow in " + more, a, x -> x.pow(by, copy), x -> x.pow(by, to));
        double number = Double.longBitsToDouble(RANDOM.nextLong());
        same("of a double", number, "", told(() -> new copied.BigDecimal(number)), told(() -> new BigDecimal(number)));
        same("valueOf", number, "", told(() -> copied.BigDecimal.valueOf(number)), told(() -> new BigDecimal(copied.Double.toString(number))));
    }

    static void read(String text) {
        same("read", text, "", told(() -> new copied.BigDecimal(text)), told(() -> new BigDecimal(text)));
    }

    public static void main(String[] words) {
        int count = Integer.parseInt(words[0]);
        for (int at = 0; at < count; at++) {
            String a = next();
            String b = RANDOM.nextInt(6) == 0 ? a : next();
            numbers(a, b);
            rounded(a, b, RANDOM.nextInt(30) - 8, RANDOM.nextInt(20), RANDOM.nextInt(8));
            char odd = "eE+-. x_0".charAt(RANDOM.nextInt(9));
            int where = RANDOM.nextInt(a.length() + 1);
            read(a.substring(0, where) + odd + a.substring(where));
        }
        for (String text : new String[] {"", "+", "-", ".", "+.", "1.", ".5", "-.5", "+.5e3", "1e", "1e+", "1e99999999999", "1e-2147483648", "1e2147483648", "0e5", "0.000",
            "0E-8", "0E+9"}) {
            read(text);
        }
        System.out.println("BigDecimal: random numbers " + count + ", wrong " + wrong);
        System.exit(wrong == 0 ? 0 : 1);
    }
}
