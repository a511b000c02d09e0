package floats;

import java.math.BigInteger;
import java.util.Arrays;
import java.util.Random;
import java.util.function.BiFunction;
import java.util.function.Function;

/** Members of BigInteger beside a JDK's own, on random numbers of up to ten limbs, many of them near powers of two. */
public final class BigIntegerCheck {
    static final Random RANDOM = new Random(89);
    static int wrong;

    static BigInteger next() {
        byte[] twos = new byte[1 + RANDOM.nextInt(RANDOM.nextInt(40) + 1)];
        RANDOM.nextBytes(twos);
        for (int at = 0; at < twos.length; at++) {
            int kind = RANDOM.nextInt(4);
            if (kind < 2 && at > 0) {
                twos[at] = twos[at - 1] < 0 ? (byte) -kind : (byte) (kind - 1);
            }
        }
        return new BigInteger(twos);
    }

    static Object shown(Object of) {
        return of instanceof byte[] ? Arrays.toString((byte[]) of) : of instanceof Object[] ? Arrays.toString((Object[]) of) : String.valueOf(of);
    }

    static Object told(java.util.function.Supplier<Object> of) {
        try {
            return shown(of.get());
        } catch (ArithmeticException | NumberFormatException failure) {
            return failure.toString();
        }
    }

    static void same(String name, Object one, Object other, Object have, Object want) {
        if (!have.equals(want) && wrong++ < 20) {
            System.out.println(name + " " + one + " " + other + ": " + have + " and not " + want);
        }
    }

    static void one(String name, BigInteger of, Function<copied.BigInteger, Object> have, Function<BigInteger, Object> want) {
        same(name, of, "", told(() -> have.apply(new copied.BigInteger(of.toByteArray()))), told(() -> want.apply(of)));
    }

    static void two(String name, BigInteger of, BigInteger other, BiFunction<copied.BigInteger, copied.BigInteger, Object> have,
            BiFunction<BigInteger, BigInteger, Object> want) {
        same(name, of, other, told(() -> have.apply(new copied.BigInteger(of.toByteArray()), new copied.BigInteger(other.toByteArray()))),
            told(() -> want.apply(of, other)));
    }

    static void numbers(BigInteger a, BigInteger b) {
        two("add", a, b, (x, y) -> x.add(y), (x, y) -> x.add(y));
        two("subtract", a, b, (x, y) -> x.subtract(y), (x, y) -> x.subtract(y));
        two("multiply", a, b, (x, y) -> x.multiply(y), (x, y) -> x.multiply(y));
        two("divideAndRemainder", a, b, (x, y) -> x.divideAndRemainder(y), (x, y) -> x.divideAndRemainder(y));
        two("mod", a, b, (x, y) -> x.mod(y), (x, y) -> x.mod(y));
        two("gcd", a, b, (x, y) -> x.gcd(y), (x, y) -> x.gcd(y));
        two("modInverse", a, b, (x, y) -> x.modInverse(y), (x, y) -> x.modInverse(y));
        two("and", a, b, (x, y) -> x.and(y), (x, y) -> x.and(y));
        two("or", a, b, (x, y) -> x.or(y), (x, y) -> x.or(y));
        two("xor", a, b, (x, y) -> x.xor(y), (x, y) -> x.xor(y));
        two("andNot", a, b, (x, y) -> x.andNot(y), (x, y) -> x.andNot(y));
        two("compareTo", a, b, (x, y) -> x.compareTo(y), (x, y) -> x.compareTo(y));
        two("equals", a, b, (x, y) -> x.equals(y), (x, y) -> x.equals(y));
        two("min", a, b, (x, y) -> x.min(y), (x, y) -> x.min(y));
        two("max", a, b, (x, y) -> x.max(y), (x, y) -> x.max(y));
        one("not", a, x -> x.not(), x -> x.not());
        one("negate", a, x -> x.negate(), x -> x.negate());
        one("abs", a, x -> x.abs(), x -> x.abs());
        one("signum", a, x -> x.signum(), x -> x.signum());
        one("hashCode", a, x -> x.hashCode(), x -> x.hashCode());
        one("bits", a, x -> x.bitLength() + " " + x.bitCount() + " " + x.getLowestSetBit(), x -> x.bitLength() + " " + x.bitCount() + " " + x.getLowestSetBit());
        one("toByteArray", a, x -> x.toByteArray(), x -> x.toByteArray());
        one("numbers", a, x -> x.intValue() + " " + x.longValue() + " " + x.doubleValue() + " " + x.floatValue(),
            x -> x.intValue() + " " + x.longValue() + " " + x.doubleValue() + " " + x.floatValue());
        one("exact", a, x -> x.longValueExact() + x.intValueExact() + x.shortValueExact() + x.byteValueExact(),
            x -> x.longValueExact() + x.intValueExact() + x.shortValueExact() + x.byteValueExact());
    }

    static void withInts(BigInteger a, BigInteger b, int by) {
        one("shiftLeft " + by, a, x -> x.shiftLeft(by), x -> x.shiftLeft(by));
        one("shiftRight " + by, a, x -> x.shiftRight(by), x -> x.shiftRight(by));
        one("testBit " + by, a, x -> x.testBit(by), x -> x.testBit(by));
        one("setBit " + by, a, x -> x.setBit(by), x -> x.setBit(by));
        one("clearBit " + by, a, x -> x.clearBit(by), x -> x.clearBit(by));
        one("flipBit " + by, a, x -> x.flipBit(by), x -> x.flipBit(by));
        int radix = Math.abs(by) % 40;
        one("toString " + radix, a, x -> x.toString(radix), x -> x.toString(radix));
        String text = RANDOM.nextInt(4) == 0 ? a.toString(16) : (RANDOM.nextInt(8) == 0 ? "+" : "") + a.toString(radix);
        same("read " + radix, text, "", told(() -> new copied.BigInteger(text, radix)), told(() -> new BigInteger(text, radix)));
        same("valueOf", a, "", told(() -> copied.BigInteger.valueOf(a.longValue())), told(() -> BigInteger.valueOf(a.longValue())));
        same("of a size", a, by % 3, told(() -> new copied.BigInteger(by % 3, a.toByteArray())), told(() -> new BigInteger(by % 3, a.toByteArray())));
        same("of random bits", by, "", told(() -> new copied.BigInteger(Math.abs(by), new Random(by))), told(() -> new BigInteger(Math.abs(by), new Random(by))));
        if (a.bitLength() < 70) {
            one("pow " + by % 20, a, x -> x.pow(by % 20), x -> x.pow(by % 20));
            two("modPow", a, b, (x, y) -> x.modPow(y.shiftRight(y.bitLength() - 9), y), (x, y) -> x.modPow(y.shiftRight(y.bitLength() - 9), y));
            one("isProbablePrime", a, x -> x.isProbablePrime(50), x -> x.isProbablePrime(50));
        }
    }

    public static void main(String[] words) {
        int count = Integer.parseInt(words[0]);
        for (int at = 0; at < count; at++) {
            BigInteger a = next();
            BigInteger b = RANDOM.nextInt(4) == 0 ? a.multiply(next()).add(BigInteger.valueOf(RANDOM.nextInt(3) - 1)) : next();
            numbers(a, b);
            numbers(b, a);
            withInts(a, b, RANDOM.nextInt(140) - 40);
        }
        System.out.println("BigInteger: random numbers " + count + ", wrong " + wrong);
        System.exit(wrong == 0 ? 0 : 1);
    }
}
