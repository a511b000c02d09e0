package java.math;

import java.util.Random;

/** Integers of any size: a sign, and the size in limbs of 32 bits, the least first, of which the last is not zero. */
public class BigInteger extends Number implements Comparable<BigInteger>, java.io.Serializable {
    public static final BigInteger ZERO = new BigInteger(0, new int[0]);
    public static final BigInteger ONE = new BigInteger(1, new int[] {1});
    public static final BigInteger TEN = new BigInteger(1, new int[] {10});

    private static final long LIMB = 0xffffffffL;

    private final int sign;
    private final int[] limbs;

    private BigInteger(int sign, int[] limbs) {
        this.sign = sign;
        this.limbs = limbs;
    }

    private BigInteger(BigInteger of) {
        this(of.sign, of.limbs);
    }

    public BigInteger(String of) {
        this(read(of, 10));
    }

    public BigInteger(String of, int radix) {
        this(read(of, radix));
    }

    public BigInteger(byte[] twos) {
        this(ofTwos(twos));
    }

    public BigInteger(int sign, byte[] size) {
        this(ofSize(sign, size));
    }

    public BigInteger(int bits, Random random) {
        this(made(1, randomBits(bits, random)));
    }

    // Making.

    public static BigInteger valueOf(long of) {
        return made(of < 0 ? -1 : 1, ofLong(of < 0 ? -of : of));
    }

    private static int[] ofLong(long of) {
        return new int[] {(int) of, (int) (of >>> 32)};
    }

    /** The number of a sign and limbs, of which the last ones may be zero. */
    private static BigInteger made(int sign, int[] limbs) {
        int count = limbs.length;
        while (count > 0 && limbs[count - 1] == 0) {
            count--;
        }
        if (count == 0) {
            return ZERO;
        }
        return new BigInteger(sign, count == limbs.length ? limbs : part(limbs, 0, count));
    }

    private static int[] part(int[] of, int from, int count) {
        int[] found = new int[count];
        System.arraycopy(of, from, found, 0, Math.min(count, of.length - from));
        return found;
    }

    private static BigInteger read(String of, int radix) {
        if (radix < 2 || radix > 36) {
            throw new NumberFormatException("Radix out of range");
        }
        if (of.isEmpty()) {
            throw new NumberFormatException("Zero length BigInteger");
        }
        int minus = of.lastIndexOf('-');
        int plus = of.lastIndexOf('+');
        int at = 0;
        if (minus >= 0 || plus >= 0) {
            if (minus > 0 || plus > 0 || minus == 0 && plus == 0) {
                throw new NumberFormatException("Illegal embedded sign character");
            }
            at = 1;
        }
        if (at == of.length()) {
            throw new NumberFormatException("Zero length BigInteger");
        }
        while (at < of.length() && Character.digit(of.charAt(at), radix) == 0) {
            at++;
        }
        int chunk = chunk(radix);
        int[] found = new int[(of.length() - at) / chunk + 1];
        int next = (of.length() - at) % chunk;
        while (at < of.length()) {
            next = next == 0 ? chunk : next;
            String group = of.substring(at, at + next);
            int value = Integer.parseInt(group, radix);
            if (value < 0) {
                throw new NumberFormatException("Illegal digit");
            }
            long carry = value;
            long by = power(radix, chunk);
            for (int limb = 0; limb < found.length; limb++) {
                carry += (found[limb] & LIMB) * by;
                found[limb] = (int) carry;
                carry >>>= 32;
            }
            at += next;
            next = 0;
        }
        return made(minus == 0 ? -1 : 1, found);
    }

    /** How many digits of a radix an int has room for. */
    private static int chunk(int radix) {
        int count = 0;
        for (long size = radix; size <= Integer.MAX_VALUE; size *= radix) {
            count++;
        }
        return count;
    }

    private static int power(int of, int count) {
        int found = 1;
        for (int at = 0; at < count; at++) {
            found *= of;
        }
        return found;
    }

    private static BigInteger ofTwos(byte[] twos) {
        if (twos.length == 0) {
            throw new NumberFormatException("Zero length BigInteger");
        }
        int[] found = new int[twos.length / 4 + 1];
        for (int at = 0; at < 4 * found.length; at++) {
            int one = at < twos.length ? twos[twos.length - 1 - at] & 0xff : twos[0] < 0 ? 0xff : 0;
            found[at >> 2] |= one << 8 * (at & 3);
        }
        return ofTwos(found);
    }

    /** The number of limbs in two's complement. */
    private static BigInteger ofTwos(int[] twos) {
        if (twos[twos.length - 1] >= 0) {
            return made(1, twos);
        }
        int[] found = new int[twos.length];
        long carry = 1;
        for (int at = 0; at < found.length; at++) {
            carry += ~twos[at] & LIMB;
            found[at] = (int) carry;
            carry >>>= 32;
        }
        return made(-1, found);
    }

    private static BigInteger ofSize(int sign, byte[] size) {
        if (sign < -1 || sign > 1) {
            throw new NumberFormatException("Invalid signum value");
        }
        BigInteger found = ofTwos(joined(size));
        if (sign == 0 && found.sign != 0) {
            throw new NumberFormatException("signum-magnitude mismatch");
        }
        return made(sign, found.limbs);
    }

    private static byte[] joined(byte[] size) {
        byte[] found = new byte[size.length + 1];
        System.arraycopy(size, 0, found, 1, size.length);
        return found;
    }

    private static int[] randomBits(int bits, Random random) {
        if (bits < 0) {
            throw new IllegalArgumentException("numBits must be non-negative");
        }
        byte[] found = new byte[(bits + 7) / 8];
        if (found.length > 0) {
            random.nextBytes(found);
            found[0] &= (1 << 8 - (8 * found.length - bits)) - 1;
        }
        return ofTwos(joined(found)).limbs;
    }

    // Sizes.

    private static int compareSizes(int[] one, int[] other) {
        if (one.length != other.length) {
            return one.length < other.length ? -1 : 1;
        }
        for (int at = one.length - 1; at >= 0; at--) {
            if (one[at] != other[at]) {
                return (one[at] & LIMB) < (other[at] & LIMB) ? -1 : 1;
            }
        }
        return 0;
    }

    private static int[] sum(int[] one, int[] other) {
        int[] found = new int[Math.max(one.length, other.length) + 1];
        long carry = 0;
        for (int at = 0; at < found.length; at++) {
            carry += (at < one.length ? one[at] & LIMB : 0) + (at < other.length ? other[at] & LIMB : 0);
            found[at] = (int) carry;
            carry >>>= 32;
        }
        return found;
    }

    /** The difference, where the first is not the smaller one. */
    private static int[] difference(int[] one, int[] other) {
        int[] found = new int[one.length];
        long carry = 0;
        for (int at = 0; at < found.length; at++) {
            carry += (one[at] & LIMB) - (at < other.length ? other[at] & LIMB : 0);
            found[at] = (int) carry;
            carry >>= 32;
        }
        return found;
    }

    private static int[] product(int[] one, int[] other) {
        int[] found = new int[one.length + other.length];
        for (int at = 0; at < one.length; at++) {
            long carry = 0;
            for (int next = 0; next < other.length; next++) {
                carry += (one[at] & LIMB) * (other[next] & LIMB) + (found[at + next] & LIMB);
                found[at + next] = (int) carry;
                carry >>>= 32;
            }
            found[at + other.length] = (int) carry;
        }
        return found;
    }

    /** Divides a size by a limb in place, and gives the rest. */
    private static int divideBy(int[] of, int by) {
        long rest = 0;
        for (int at = of.length - 1; at >= 0; at--) {
            long whole = rest << 32 | of[at] & LIMB;
            long part = quotient(whole, by & LIMB);
            rest = whole - part * (by & LIMB);
            of[at] = (int) part;
        }
        return (int) rest;
    }

    /** The quotient of two numbers without a sign, the second below 2^32. */
    private static long quotient(long of, long by) {
        if (of >= 0) {
            return of / by;
        }
        long found = (of >>> 1) / by << 1;
        long rest = of - found * by;
        return rest < 0 || rest >= by ? found + 1 : found;
    }

    /** Quotient and rest of two sizes, by Knuth's algorithm D. */
    private static int[][] divided(int[] of, int[] by) {
        if (compareSizes(of, by) < 0) {
            return new int[][] {new int[0], of};
        }
        if (by.length == 1) {
            int[] quotient = part(of, 0, of.length);
            return new int[][] {quotient, {divideBy(quotient, by[0])}};
        }
        int count = by.length;
        int shift = Integer.numberOfLeadingZeros(by[count - 1]);
        int[] divisor = shifted(by, shift, count);
        int[] rest = shifted(of, shift, of.length + 1);
        int[] quotient = new int[of.length - count + 1];
        long first = divisor[count - 1] & LIMB;
        long second = divisor[count - 2] & LIMB;
        for (int at = quotient.length - 1; at >= 0; at--) {
            long top = (long) rest[at + count] << 32 | rest[at + count - 1] & LIMB;
            long guess = quotient(top, first);
            long left = top - guess * first;
            while (left <= LIMB && (guess > LIMB || guess * second + Long.MIN_VALUE > (left << 32 | rest[at + count - 2] & LIMB) + Long.MIN_VALUE)) {
                guess--;
                left += first;
            }
            quotient[at] = (int) (subtracted(rest, at, divisor, guess) ? guess : guess - 1);
        }
        int[] found = new int[count];
        for (int at = 0; at < count; at++) {
            found[at] = (int) ((rest[at + 1] & LIMB) << 32 - shift | (rest[at] & LIMB) >>> shift);
        }
        return new int[][] {quotient, found};
    }

    /** Takes a divisor so many times from a rest; where that was once too often gives it back, and gives false. */
    private static boolean subtracted(int[] rest, int at, int[] divisor, long times) {
        long carry = 0;
        long borrow = 0;
        for (int next = 0; next < divisor.length; next++) {
            carry += times * (divisor[next] & LIMB);
            borrow += (rest[at + next] & LIMB) - (carry & LIMB);
            rest[at + next] = (int) borrow;
            borrow >>= 32;
            carry >>>= 32;
        }
        borrow += (rest[at + divisor.length] & LIMB) - carry;
        rest[at + divisor.length] = (int) borrow;
        if (borrow >= 0) {
            return true;
        }
        carry = 0;
        for (int next = 0; next < divisor.length; next++) {
            carry += (rest[at + next] & LIMB) + (divisor[next] & LIMB);
            rest[at + next] = (int) carry;
            carry >>>= 32;
        }
        rest[at + divisor.length] += (int) carry;
        return false;
    }

    /** A size shifted to the left by fewer than 32 bits, in so many limbs. */
    private static int[] shifted(int[] of, int by, int count) {
        int[] found = new int[count];
        for (int at = 0; at < count; at++) {
            long low = at > 0 ? of[at - 1] & LIMB : 0;
            found[at] = (int) ((at < of.length ? (of[at] & LIMB) << by : 0) | low >>> 32 - by);
        }
        return found;
    }

    // Arithmetic.

    public BigInteger add(BigInteger other) {
        if (sign == 0 || other.sign == 0) {
            return sign == 0 ? other : this;
        }
        if (sign == other.sign) {
            return made(sign, sum(limbs, other.limbs));
        }
        return compareSizes(limbs, other.limbs) >= 0 ? made(sign, difference(limbs, other.limbs)) : made(other.sign, difference(other.limbs, limbs));
    }

    public BigInteger subtract(BigInteger other) {
        return add(other.negate());
    }

    public BigInteger multiply(BigInteger other) {
        return made(sign * other.sign, product(limbs, other.limbs));
    }

    public BigInteger[] divideAndRemainder(BigInteger by) {
        if (by.sign == 0) {
            throw new ArithmeticException("BigInteger divide by zero");
        }
        int[][] found = divided(limbs, by.limbs);
        return new BigInteger[] {made(sign * by.sign, found[0]), made(sign, found[1])};
    }

    public BigInteger divide(BigInteger by) {
        return divideAndRemainder(by)[0];
    }

    public BigInteger remainder(BigInteger by) {
        return divideAndRemainder(by)[1];
    }

    public BigInteger mod(BigInteger by) {
        if (by.sign <= 0) {
            throw new ArithmeticException("BigInteger: modulus not positive");
        }
        BigInteger found = remainder(by);
        return found.sign < 0 ? found.add(by) : found;
    }

    public BigInteger pow(int by) {
        if (by < 0) {
            throw new ArithmeticException("Negative exponent");
        }
        BigInteger found = ONE;
        BigInteger square = this;
        for (int left = by; left != 0; left >>>= 1) {
            if ((left & 1) != 0) {
                found = found.multiply(square);
            }
            if (left > 1) {
                square = square.multiply(square);
            }
        }
        return found;
    }

    public BigInteger modPow(BigInteger by, BigInteger of) {
        if (of.sign <= 0) {
            throw new ArithmeticException("BigInteger: modulus not positive");
        }
        if (by.sign < 0) {
            return modInverse(of).modPow(by.negate(), of);
        }
        BigInteger found = ONE.mod(of);
        BigInteger base = mod(of);
        for (int at = by.bitLength() - 1; at >= 0; at--) {
            found = found.multiply(found).mod(of);
            if (by.testBit(at)) {
                found = found.multiply(base).mod(of);
            }
        }
        return found;
    }

    public BigInteger modInverse(BigInteger of) {
        if (of.sign != 1) {
            throw new ArithmeticException("BigInteger: modulus not positive");
        }
        BigInteger rest = of;
        BigInteger next = mod(of);
        BigInteger factor = ZERO;
        BigInteger nextFactor = ONE;
        while (next.sign != 0) {
            BigInteger[] found = rest.divideAndRemainder(next);
            BigInteger kept = factor.subtract(found[0].multiply(nextFactor));
            factor = nextFactor;
            nextFactor = kept;
            rest = next;
            next = found[1];
        }
        if (!rest.equals(ONE)) {
            throw new ArithmeticException("BigInteger not invertible.");
        }
        return factor.mod(of);
    }

    public BigInteger gcd(BigInteger other) {
        BigInteger one = abs();
        BigInteger two = other.abs();
        while (two.sign != 0) {
            BigInteger rest = one.remainder(two);
            one = two;
            two = rest;
        }
        return one;
    }

    public BigInteger abs() {
        return sign < 0 ? negate() : this;
    }

    public BigInteger negate() {
        return made(-sign, limbs);
    }

    public int signum() {
        return sign;
    }

    // Bits, in two's complement.

    private int limb(int at) {
        if (at >= limbs.length) {
            return sign < 0 ? -1 : 0;
        }
        if (sign >= 0) {
            return limbs[at];
        }
        for (int below = 0; below < at; below++) {
            if (limbs[below] != 0) {
                return ~limbs[at];
            }
        }
        return -limbs[at];
    }

    private int[] twos(int count) {
        int[] found = new int[count];
        for (int at = 0; at < count; at++) {
            found[at] = limb(at);
        }
        return found;
    }

    public BigInteger and(BigInteger other) {
        int[] found = twos(Math.max(limbs.length, other.limbs.length) + 1);
        for (int at = 0; at < found.length; at++) {
            found[at] &= other.limb(at);
        }
        return ofTwos(found);
    }

    public BigInteger or(BigInteger other) {
        return not().and(other.not()).not();
    }

    public BigInteger xor(BigInteger other) {
        int[] found = twos(Math.max(limbs.length, other.limbs.length) + 1);
        for (int at = 0; at < found.length; at++) {
            found[at] ^= other.limb(at);
        }
        return ofTwos(found);
    }

    public BigInteger not() {
        return negate().subtract(ONE);
    }

    public BigInteger andNot(BigInteger other) {
        return and(other.not());
    }

    private static void checkBit(int at) {
        if (at < 0) {
            throw new ArithmeticException("Negative bit address");
        }
    }

    public boolean testBit(int at) {
        checkBit(at);
        return (limb(at >>> 5) >>> (at & 31) & 1) != 0;
    }

    private BigInteger withBit(int at, boolean to) {
        if (testBit(at) == to) {
            return this;
        }
        int[] found = twos(Math.max(limbs.length, at >>> 5) + 2);
        found[at >>> 5] ^= 1 << (at & 31);
        return ofTwos(found);
    }

    public BigInteger setBit(int at) {
        return withBit(at, true);
    }

    public BigInteger clearBit(int at) {
        return withBit(at, false);
    }

    public BigInteger flipBit(int at) {
        return withBit(at, !testBit(at));
    }

    public BigInteger shiftLeft(int by) {
        if (by <= 0) {
            return by == 0 ? this : shiftRight(-by);
        }
        int[] found = new int[limbs.length + (by >>> 5) + 1];
        int[] moved = (by & 31) == 0 ? limbs : shifted(limbs, by & 31, limbs.length + 1);
        System.arraycopy(moved, 0, found, by >>> 5, moved.length);
        return made(sign, found);
    }

    public BigInteger shiftRight(int by) {
        if (by <= 0) {
            return by == 0 ? this : shiftLeft(-by);
        }
        int count = Math.max(1, limbs.length - (by >>> 5) + 1);
        int[] found = new int[count];
        for (int at = 0; at < count; at++) {
            long high = limb(at + (by >>> 5) + 1);
            found[at] = (int) ((high << 32 | limb(at + (by >>> 5)) & LIMB) >>> (by & 31));
        }
        return ofTwos(found);
    }

    public int getLowestSetBit() {
        for (int at = 0; at < limbs.length; at++) {
            if (limbs[at] != 0) {
                return 32 * at + Integer.numberOfTrailingZeros(limbs[at]);
            }
        }
        return -1;
    }

    public int bitLength() {
        if (sign == 0) {
            return 0;
        }
        int found = 32 * limbs.length - Integer.numberOfLeadingZeros(limbs[limbs.length - 1]);
        return sign < 0 && getLowestSetBit() == found - 1 ? found - 1 : found;
    }

    public int bitCount() {
        int found = 0;
        for (int at = 0; at < limbs.length; at++) {
            found += Integer.bitCount(limbs[at]);
        }
        return sign < 0 ? found + getLowestSetBit() - 1 : found;
    }

    // Primes.

    public boolean isProbablePrime(int certainty) {
        if (certainty <= 0) {
            return true;
        }
        BigInteger of = abs();
        if (of.limbs.length == 1 && of.limbs[0] > 0 && of.limbs[0] < 4) {
            return of.limbs[0] > 1;
        }
        if (!of.testBit(0)) {
            return false;
        }
        int[] bases = {2, 3, 5, 7, 11, 13, 17, 19, 23, 29, 31, 37, 41};
        for (int at = 0; at < bases.length; at++) {
            BigInteger base = valueOf(bases[at]);
            if (of.equals(base)) {
                return true;
            }
            if (of.compareTo(ONE) > 0 && !of.passes(base)) {
                return false;
            }
        }
        return of.compareTo(ONE) > 0;
    }

    /** Whether an odd number passes the test of Miller and Rabin to a base. */
    private boolean passes(BigInteger base) {
        BigInteger less = subtract(ONE);
        int twos = less.getLowestSetBit();
        BigInteger found = base.modPow(less.shiftRight(twos), this);
        if (found.equals(ONE) || found.equals(less)) {
            return true;
        }
        for (int at = 1; at < twos; at++) {
            found = found.multiply(found).mod(this);
            if (found.equals(less)) {
                return true;
            }
        }
        return false;
    }

    public BigInteger nextProbablePrime() {
        if (sign < 0) {
            throw new ArithmeticException("start < 0: " + this);
        }
        BigInteger found = add(ONE);
        while (!found.isProbablePrime(100)) {
            found = found.add(ONE);
        }
        return found;
    }

    // Numbers, texts, comparisons.

    @Override
    public int intValue() {
        return limb(0);
    }

    @Override
    public long longValue() {
        return (long) limb(1) << 32 | limb(0) & LIMB;
    }

    /** The first 62 bits of the size; the last of them is set where anything but zero follows. */
    private long top() {
        int shift = abs().bitLength() - 62;
        return abs().shiftRight(shift).longValue() | (getLowestSetBit() < shift ? 1 : 0);
    }

    @Override
    public double doubleValue() {
        return bitLength() < 64 ? longValue() : sign * Math.scalb((double) top(), Math.min(abs().bitLength() - 62, 2000));
    }

    @Override
    public float floatValue() {
        return bitLength() < 64 ? longValue() : sign * Math.scalb((float) top(), Math.min(abs().bitLength() - 62, 2000));
    }

    public int intValueExact() {
        if (bitLength() > 31) {
            throw new ArithmeticException("BigInteger out of int range");
        }
        return intValue();
    }

    public long longValueExact() {
        if (bitLength() > 63) {
            throw new ArithmeticException("BigInteger out of long range");
        }
        return longValue();
    }

    public short shortValueExact() {
        if (bitLength() > 15) {
            throw new ArithmeticException("BigInteger out of short range");
        }
        return (short) intValue();
    }

    public byte byteValueExact() {
        if (bitLength() > 7) {
            throw new ArithmeticException("BigInteger out of byte range");
        }
        return (byte) intValue();
    }

    public byte[] toByteArray() {
        byte[] found = new byte[bitLength() / 8 + 1];
        for (int at = 0; at < found.length; at++) {
            found[found.length - 1 - at] = (byte) (limb(at >> 2) >> 8 * (at & 3));
        }
        return found;
    }

    public BigInteger min(BigInteger other) {
        return compareTo(other) < 0 ? this : other;
    }

    public BigInteger max(BigInteger other) {
        return compareTo(other) > 0 ? this : other;
    }

    @Override
    public int compareTo(BigInteger other) {
        return sign != other.sign ? (sign < other.sign ? -1 : 1) : sign * compareSizes(limbs, other.limbs);
    }

    @Override
    public boolean equals(Object other) {
        return other instanceof BigInteger && compareTo((BigInteger) other) == 0;
    }

    @Override
    public int hashCode() {
        int found = 0;
        for (int at = limbs.length - 1; at >= 0; at--) {
            found = 31 * found + limbs[at];
        }
        return found * sign;
    }

    @Override
    public String toString() {
        return toString(10);
    }

    public String toString(int radix) {
        int of = radix < 2 || radix > 36 ? 10 : radix;
        int chunk = chunk(of);
        int by = power(of, chunk);
        int[] left = part(limbs, 0, limbs.length);
        String found = "";
        for (int count = limbs.length; count > 0;) {
            String digits = Integer.toString(divideBy(left, by), of);
            while (count > 0 && left[count - 1] == 0) {
                count--;
            }
            StringBuilder group = new StringBuilder();
            for (int at = digits.length(); count > 0 && at < chunk; at++) {
                group.append('0');
            }
            found = group.append(digits).append(found).toString();
        }
        return sign == 0 ? "0" : sign < 0 ? "-" + found : found;
    }
}
