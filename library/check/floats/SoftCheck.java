package floats;

import java.util.Random;
import more.floats.Soft;

/** Each operation of Soft beside the machine's own, bit by bit: on all pairs of special operands, and on as many random ones as asked for. */
public final class SoftCheck {
    static final Random RANDOM = new Random(87);
    static int wrong;

    static final long[] SPECIAL = specials();
    static final int[] SPECIAL_F = specialFloats();

    static long[] specials() {
        java.util.TreeSet<Long> found = new java.util.TreeSet<>();
        for (int scale : new int[] {0, 1, 2, 52, 53, 54, 1000, 1021, 1022, 1023, 1024, 1025, 1054, 1055, 1056, 1075, 1076, 1077, 1085, 1086, 1087,
            873, 874, 896, 897, 1150, 1151, 2044, 2045, 2046, 2047}) {
            for (long fraction : new long[] {0, 1, 2, 3, 1L << 28, (1L << 28) + 1, 1L << 29, 3L << 28, 1L << 51, (1L << 51) + 1, (1L << 52) - 1, (1L << 52) - 2,
                (1L << 52) - (1L << 28), (1L << 52) - (1L << 29), 1L << 26, (1L << 26) - 1}) {
                found.add((long) scale << 52 | fraction);
                found.add(1L << 63 | (long) scale << 52 | fraction);
            }
        }
        return found.stream().mapToLong(Long::longValue).toArray();
    }

    static int[] specialFloats() {
        java.util.TreeSet<Integer> found = new java.util.TreeSet<>();
        for (int scale : new int[] {0, 1, 2, 23, 24, 25, 100, 125, 126, 127, 128, 129, 149, 150, 151, 157, 158, 159, 189, 190, 191, 252, 253, 254, 255}) {
            for (int fraction : new int[] {0, 1, 2, 3, 1 << 11, (1 << 12) - 1, 1 << 12, 1 << 22, (1 << 22) + 1, (1 << 23) - 1, (1 << 23) - 2}) {
                found.add(scale << 23 | fraction);
                found.add(1 << 31 | scale << 23 | fraction);
            }
        }
        return found.stream().mapToInt(Integer::intValue).toArray();
    }

    /** A double of one of several kinds: any bits, few bits, a small integer, one near another. */
    static long next(long near) {
        switch (RANDOM.nextInt(8)) {
            case 0:
                return SPECIAL[RANDOM.nextInt(SPECIAL.length)];
            case 1:
                return Double.doubleToRawLongBits(RANDOM.nextInt(2001) - 1000);
            case 2:
                return RANDOM.nextLong() & 1L << 63 | (near + ((long) (RANDOM.nextInt(130) - 65) << 52) & 0x7ffL << 52) | RANDOM.nextLong() >>> 12;
            case 3:
                return RANDOM.nextLong() & 1L << 63 | (near + ((long) (RANDOM.nextInt(130) - 65) << 52) & 0x7ffL << 52)
                    | RANDOM.nextLong() >>> 12 & -1L << RANDOM.nextInt(52);
            case 4:
                return near ^ RANDOM.nextLong() & 1L << 63 ^ RANDOM.nextInt(4);
            case 5:
                return Double.doubleToRawLongBits((RANDOM.nextInt(200001) - 100000) / 1000.0);
            case 6:
                return RANDOM.nextLong() & 1L << 63 | RANDOM.nextLong() >>> 12 + RANDOM.nextInt(52);
            default:
                return RANDOM.nextLong();
        }
    }

    static int nextFloat(int near) {
        switch (RANDOM.nextInt(6)) {
            case 0:
                return SPECIAL_F[RANDOM.nextInt(SPECIAL_F.length)];
            case 1:
                return Float.floatToRawIntBits(RANDOM.nextInt(2001) - 1000);
            case 2:
                return RANDOM.nextInt() & 1 << 31 | (near + (RANDOM.nextInt(70) - 35 << 23) & 0xff << 23) | RANDOM.nextInt() >>> 9 & -1 << RANDOM.nextInt(23);
            case 3:
                return near ^ RANDOM.nextInt() & 1 << 31 ^ RANDOM.nextInt(4);
            case 4:
                return RANDOM.nextInt() & 1 << 31 | RANDOM.nextInt() >>> 9 + RANDOM.nextInt(23);
            default:
                return RANDOM.nextInt();
        }
    }

    static long canonical(double of) {
        return Double.doubleToLongBits(of);
    }

    static void same(String what, long one, long other, long have, double want) {
        if (have != canonical(want)) {
            fail(what, one, other, have, canonical(want));
        }
    }

    static void sameF(String what, long one, long other, int have, float want) {
        if (have != Float.floatToIntBits(want)) {
            fail(what, one, other, have, Float.floatToIntBits(want));
        }
    }

    static void sameNumber(String what, long one, long other, long have, long want) {
        if (have != want) {
            fail(what, one, other, have, want);
        }
    }

    static void fail(String what, long one, long other, long have, long want) {
        if (wrong++ < 40) {
            System.out.printf("%s %x %x: %x and not %x%n", what, one, other, have, want);
        }
    }

    static void pair(long a, long b) {
        double x = Double.longBitsToDouble(a);
        double y = Double.longBitsToDouble(b);
        same("dadd", a, b, Soft.dadd(a, b), x + y);
        same("dsub", a, b, Soft.dsub(a, b), x - y);
        same("dmul", a, b, Soft.dmul(a, b), x * y);
        same("ddiv", a, b, Soft.ddiv(a, b), x / y);
        same("drem", a, b, canonical(Double.longBitsToDouble(Soft.drem(a, b))), x % y);
        sameNumber("dcmpl", a, b, Soft.dcmpl(a, b), x < y ? -1 : x == y ? 0 : x > y ? 1 : -1);
        sameNumber("dcmpg", a, b, Soft.dcmpg(a, b), x < y ? -1 : x == y ? 0 : x > y ? 1 : 1);
    }

    static void single(long a) {
        double x = Double.longBitsToDouble(a);
        same("sqrt", a, 0, Soft.sqrt(a), Math.sqrt(x));
        same("dneg", a, 0, canonical(Double.longBitsToDouble(Soft.dneg(a))), -x);
        sameNumber("d2i", a, 0, Soft.d2i(a), (int) x);
        sameNumber("d2l", a, 0, Soft.d2l(a), (long) x);
        sameF("d2f", a, 0, Soft.d2f(a), (float) x);
        same("l2d", a, 0, Soft.l2d(a), (double) a);
        sameF("l2f", a, 0, Soft.l2f(a), (float) a);
        same("i2d", a, 0, Soft.i2d((int) a), (double) (int) a);
        sameF("i2f", a, 0, Soft.i2f((int) a), (float) (int) a);
        int small = (int) a >> (int) (a >>> 59);
        same("i2d", small, 0, Soft.i2d(small), (double) small);
        sameF("i2f", small, 0, Soft.i2f(small), (float) small);
        long less = a >> (int) (a >>> 58);
        same("l2d", less, 0, Soft.l2d(less), (double) less);
        sameF("l2f", less, 0, Soft.l2f(less), (float) less);
    }

    static void pairF(int a, int b) {
        float x = Float.intBitsToFloat(a);
        float y = Float.intBitsToFloat(b);
        sameF("fadd", a, b, Soft.fadd(a, b), x + y);
        sameF("fsub", a, b, Soft.fsub(a, b), x - y);
        sameF("fmul", a, b, Soft.fmul(a, b), x * y);
        sameF("fdiv", a, b, Soft.fdiv(a, b), x / y);
        sameF("frem", a, b, Soft.frem(a, b), x % y);
        sameNumber("fcmpl", a, b, Soft.fcmpl(a, b), x < y ? -1 : x == y ? 0 : x > y ? 1 : -1);
        sameNumber("fcmpg", a, b, Soft.fcmpg(a, b), x < y ? -1 : x == y ? 0 : x > y ? 1 : 1);
    }

    static void singleF(int a) {
        float x = Float.intBitsToFloat(a);
        same("f2d", a, 0, Soft.f2d(a), (double) x);
        sameNumber("f2i", a, 0, Soft.f2i(a), (int) x);
        sameNumber("f2l", a, 0, Soft.f2l(a), (long) x);
        sameF("fneg", a, 0, Float.floatToIntBits(Float.intBitsToFloat(Soft.fneg(a))), -x);
    }

    public static void main(String[] words) {
        int count = Integer.parseInt(words[0]);
        for (long a : SPECIAL) {
            single(a);
            for (long b : SPECIAL) {
                pair(a, b);
            }
        }
        for (int a : SPECIAL_F) {
            singleF(a);
            for (int b : SPECIAL_F) {
                pairF(a, b);
            }
        }
        for (int at = 0; at < count; at++) {
            long a = next(RANDOM.nextLong());
            pair(a, next(a));
            single(a);
            int b = nextFloat(RANDOM.nextInt());
            pairF(b, nextFloat(b));
            singleF(b);
        }
        System.out.println("floats: special doubles " + SPECIAL.length + ", floats " + SPECIAL_F.length + ", random operands of each operation " + count
            + ", wrong " + wrong);
        System.exit(wrong == 0 ? 0 : 1);
    }
}
