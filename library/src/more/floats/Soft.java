package more.floats;

/**
 * The instructions of Java's machine that compute with floats (JVMS 6.5), by integers: a double is a long and a float is an int, by
 * their bits (IEEE 754), and what is not exact is rounded to the nearest, of two to the even one. There is one NaN as a result.
 *
 * A number in work is its exponent field, at least 1, and its fraction with the leading bit, shifted left by 9 (of a float, by 6):
 * bits behind the last place that round, the last of them set where anything but zero was lost.
 */
public final class Soft {
    static final long SIGN = 1L << 63;
    static final long REST = ~SIGN;
    static final long INFINITE = 0x7ffL << 52;
    static final long NAN = 0x7ff8L << 48;
    static final long LEADING = 1L << 52;
    static final long FRACTION = LEADING - 1;
    private static final long LOW = (1L << 26) - 1;

    private static final int SIGN_F = 1 << 31;
    private static final int REST_F = ~SIGN_F;
    private static final int INFINITE_F = 0xff << 23;
    private static final int NAN_F = 0x7fc0 << 16;
    private static final int LEADING_F = 1 << 23;
    private static final int FRACTION_F = LEADING_F - 1;

    private Soft() {
    }

    // Doubles.

    public static long dadd(long one, long other) {
        long x = one & REST;
        long y = other & REST;
        if (x < y) {
            x ^= y;
            y ^= x;
            x ^= y;
            one ^= other;
            other ^= one;
            one ^= other;
        }
        if (x >= INFINITE) {
            return x > INFINITE || y == INFINITE && one != other ? NAN : one;
        }
        int scale = (int) (x >>> 52);
        long sum = x & FRACTION;
        if (scale == 0) {
            scale = 1;
        } else {
            sum |= LEADING;
        }
        int apart = (int) (y >>> 52);
        long less = y & FRACTION;
        if (apart == 0) {
            apart = scale - 1;
        } else {
            less |= LEADING;
            apart = scale - apart;
        }
        sum <<= 9;
        less <<= 9;
        if (apart > 9) {
            if (less != 0) {
                less = apart > 62 || less << -apart != 0 ? (apart > 62 ? 0 : less >>> apart) | 1 : less >>> apart;
            }
        } else {
            less >>>= apart;
        }
        if ((one ^ other) < 0) {
            sum -= less;
            if (sum < 1L << 61) {
                if (sum == 0) {
                    return 0;
                }
                int shift = zeros(sum) - 2;
                if (shift >= scale) {
                    shift = scale - 1;
                }
                sum <<= shift;
                scale -= shift;
            }
        } else {
            sum += less;
            if (sum >= 1L << 62) {
                if (++scale == 0x7ff) {
                    return one & SIGN | INFINITE;
                }
                sum = sum >>> 1 | sum & 1;
            }
        }
        return (one & SIGN) + ((long) (scale - 1) << 52) + (sum + 0xff + (sum >>> 9 & 1) >>> 9);
    }

    public static long dsub(long one, long other) {
        return dadd(one, other ^ SIGN);
    }

    public static long dmul(long one, long other) {
        long sign = (one ^ other) & SIGN;
        int scale = (int) (one >>> 52) & 0x7ff;
        int second = (int) (other >>> 52) & 0x7ff;
        if (scale == 0x7ff || second == 0x7ff) {
            long x = one & REST;
            long y = other & REST;
            return x > INFINITE || y > INFINITE || x == 0 || y == 0 ? NAN : sign | INFINITE;
        }
        long x = one & FRACTION;
        long y = other & FRACTION;
        if (scale == 0) {
            if (x == 0) {
                return sign;
            }
            int shift = zeros(x) - 11;
            x <<= shift;
            scale = 1 - shift;
        } else {
            x |= LEADING;
        }
        if (second == 0) {
            if (y == 0) {
                return sign;
            }
            int shift = zeros(y) - 11;
            y <<= shift;
            second = 1 - shift;
        } else {
            y |= LEADING;
        }
        scale += second - 1023;
        long above = x >>> 26;
        long below = y & LOW;
        x &= LOW;
        y >>>= 26;
        long last = x * below;
        long middle = above * below + x * y + (last >>> 26);
        long product = above * y + (middle >>> 26) << 9 | middle >>> 17 & 0x1ff;
        if ((middle << 47 | last << 38) != 0) {
            product |= 1;
        }
        if (product >= 1L << 62) {
            product = product >>> 1 | product & 1;
            scale++;
        }
        if (scale <= 0 || scale >= 0x7ff) {
            return extreme(sign, scale, product);
        }
        return sign + ((long) (scale - 1) << 52) + (product + 0xff + (product >>> 9 & 1) >>> 9);
    }

    public static long ddiv(long one, long other) {
        long sign = (one ^ other) & SIGN;
        int scale = (int) (one >>> 52) & 0x7ff;
        int second = (int) (other >>> 52) & 0x7ff;
        long x = one & FRACTION;
        long y = other & FRACTION;
        if (scale == 0x7ff || second == 0x7ff) {
            if (scale != 0x7ff) {
                return y != 0 ? NAN : sign;
            }
            return x != 0 || second == 0x7ff ? NAN : sign | INFINITE;
        }
        if (second == 0) {
            if (y == 0) {
                return (one & REST) == 0 ? NAN : sign | INFINITE;
            }
            int shift = zeros(y) - 11;
            y <<= shift;
            second = 1 - shift;
        } else {
            y |= LEADING;
        }
        if (scale == 0) {
            if (x == 0) {
                return sign;
            }
            int shift = zeros(x) - 11;
            x <<= shift;
            scale = 1 - shift;
        } else {
            x |= LEADING;
        }
        scale += 1023 - second;
        if (x < y) {
            x <<= 1;
            scale--;
        }
        // The quotient is from 1 to 2; 27 bits behind its first one at a time, each time at most a few too many.
        long top = y >>> 26;
        x -= y;
        long high = (x << 1) / top;
        x = (x << 27) - high * y;
        while (x < 0) {
            high--;
            x += y;
        }
        long low = (x << 1) / top;
        x = (x << 27) - low * y;
        while (x < 0) {
            low--;
            x += y;
        }
        long quotient = (1L << 54) + (high << 27) + low << 7;
        if (x != 0) {
            quotient |= 1;
        }
        if (scale <= 0 || scale >= 0x7ff) {
            return extreme(sign, scale, quotient);
        }
        return sign + ((long) (scale - 1) << 52) + (quotient + 0xff + (quotient >>> 9 & 1) >>> 9);
    }

    /** A number whose leading bit is 61, with an exponent below 1 or above all. */
    static long extreme(long sign, int scale, long of) {
        if (scale > 0) {
            return sign | INFINITE;
        }
        int shift = 1 - scale;
        long less = shift > 62 ? 1 : of >>> shift | (of << -shift != 0 ? 1 : 0);
        return sign + (less + 0xff + (less >>> 9 & 1) >>> 9);
    }

    /** How many zeros stand before the first one of a positive number. */
    static int zeros(long of) {
        int count = 0;
        int top = (int) (of >>> 32);
        if (top == 0) {
            count = 32;
            top = (int) of;
        }
        if (top >>> 16 == 0) {
            count += 16;
            top <<= 16;
        }
        if (top >>> 24 == 0) {
            count += 8;
            top <<= 8;
        }
        if (top >>> 28 == 0) {
            count += 4;
            top <<= 4;
        }
        if (top >>> 30 == 0) {
            count += 2;
            top <<= 2;
        }
        return top < 0 ? count : count + 1;
    }

    public static long drem(long one, long other) {
        long x = one & REST;
        long y = other & REST;
        if (x >= INFINITE || y > INFINITE || y == 0) {
            return NAN;
        }
        if (x < y) {
            return one;
        }
        int scale = (int) (x >>> 52);
        int least = (int) (y >>> 52);
        x &= FRACTION;
        y &= FRACTION;
        if (scale == 0) {
            scale = 1;
        } else {
            x |= LEADING;
        }
        if (least == 0) {
            least = 1;
        } else {
            y |= LEADING;
        }
        x %= y;
        for (int left = scale - least; left > 0 && x != 0; left -= 10) {
            x = (x << (left < 10 ? left : 10)) % y;
        }
        if (x == 0) {
            return one & SIGN;
        }
        int shift = zeros(x) - 11;
        if (shift >= least) {
            shift = least - 1;
        }
        return (one & SIGN) + ((long) (least - shift - 1) << 52) + (x << shift);
    }

    public static long dneg(long of) {
        return of ^ SIGN;
    }

    public static int dcmpl(long one, long other) {
        if ((one & REST) > INFINITE || (other & REST) > INFINITE) {
            return -1;
        }
        long x = one < 0 ? SIGN - one : one;
        long y = other < 0 ? SIGN - other : other;
        return x < y ? -1 : x == y ? 0 : 1;
    }

    public static int dcmpg(long one, long other) {
        if ((one & REST) > INFINITE || (other & REST) > INFINITE) {
            return 1;
        }
        long x = one < 0 ? SIGN - one : one;
        long y = other < 0 ? SIGN - other : other;
        return x < y ? -1 : x == y ? 0 : 1;
    }

    /** The square root, as IEEE 754 has it: exact, and rounded once. */
    public static long sqrt(long of) {
        if (of <= 0 || of >= INFINITE) {
            return (of & REST) == 0 || of == INFINITE ? of : NAN;
        }
        int scale = (int) (of >>> 52);
        long x = of & FRACTION;
        if (scale == 0) {
            int shift = zeros(x) - 11;
            x <<= shift;
            scale = 1 - shift;
        } else {
            x |= LEADING;
        }
        // x is from 2^52 to 2^54, and the root of it times 2^54 has 54 bits: first 27 of them, by Newton's steps from above.
        if ((scale & 1) == 0) {
            x <<= 1;
        }
        long high = (x >>> 28) + (1L << 26);
        high = high + x / high >>> 1;
        high = high + x / high >>> 1;
        high = high + x / high >>> 1;
        high = high + x / high >>> 1;
        while (high * high > x) {
            high--;
        }
        long rest = x - high * high << 27;
        long low = rest / (high << 1);
        rest = (rest % (high << 1) << 27) - low * low;
        long root = (high << 27) + low;
        if (rest < 0) {
            root--;
            rest += (root << 1) + 1;
        }
        root <<= 8;
        if (rest != 0) {
            root |= 1;
        }
        return ((long) (scale + 1021 >> 1) << 52) + (root + 0xff + (root >>> 9 & 1) >>> 9);
    }

    // Floats.

    public static int fadd(int one, int other) {
        int x = one & REST_F;
        int y = other & REST_F;
        if (x < y) {
            x ^= y;
            y ^= x;
            x ^= y;
            one ^= other;
            other ^= one;
            one ^= other;
        }
        if (x >= INFINITE_F) {
            return x > INFINITE_F || y == INFINITE_F && one != other ? NAN_F : one;
        }
        int scale = x >>> 23;
        int sum = x & FRACTION_F;
        if (scale == 0) {
            scale = 1;
        } else {
            sum |= LEADING_F;
        }
        int apart = y >>> 23;
        int less = y & FRACTION_F;
        if (apart == 0) {
            apart = scale - 1;
        } else {
            less |= LEADING_F;
            apart = scale - apart;
        }
        sum <<= 6;
        less <<= 6;
        if (apart > 6) {
            if (less != 0) {
                less = apart > 30 ? 1 : less >>> apart | (less << -apart != 0 ? 1 : 0);
            }
        } else {
            less >>>= apart;
        }
        if ((one ^ other) < 0) {
            sum -= less;
            if (sum < 1 << 29) {
                if (sum == 0) {
                    return 0;
                }
                int shift = zeros(sum) - 34;
                if (shift >= scale) {
                    shift = scale - 1;
                }
                sum <<= shift;
                scale -= shift;
            }
        } else {
            sum += less;
            if (sum >= 1 << 30) {
                if (++scale == 0xff) {
                    return one & SIGN_F | INFINITE_F;
                }
                sum = sum >>> 1 | sum & 1;
            }
        }
        return (one & SIGN_F) + (scale - 1 << 23) + (sum + 0x1f + (sum >>> 6 & 1) >>> 6);
    }

    public static int fsub(int one, int other) {
        return fadd(one, other ^ SIGN_F);
    }

    public static int fmul(int one, int other) {
        int sign = (one ^ other) & SIGN_F;
        int scale = one >>> 23 & 0xff;
        int second = other >>> 23 & 0xff;
        if (scale == 0xff || second == 0xff) {
            int x = one & REST_F;
            int y = other & REST_F;
            return x > INFINITE_F || y > INFINITE_F || x == 0 || y == 0 ? NAN_F : sign | INFINITE_F;
        }
        int x = one & FRACTION_F;
        int y = other & FRACTION_F;
        if (scale == 0) {
            if (x == 0) {
                return sign;
            }
            int shift = zeros(x) - 40;
            x <<= shift;
            scale = 1 - shift;
        } else {
            x |= LEADING_F;
        }
        if (second == 0) {
            if (y == 0) {
                return sign;
            }
            int shift = zeros(y) - 40;
            y <<= shift;
            second = 1 - shift;
        } else {
            y |= LEADING_F;
        }
        scale += second - 127;
        long whole = (long) x * y;
        int product = (int) (whole >>> 17);
        if ((int) whole << 15 != 0) {
            product |= 1;
        }
        if (product >= 1 << 30) {
            product = product >>> 1 | product & 1;
            scale++;
        }
        return packed(sign, scale, product);
    }

    public static int fdiv(int one, int other) {
        int sign = (one ^ other) & SIGN_F;
        int scale = one >>> 23 & 0xff;
        int second = other >>> 23 & 0xff;
        int x = one & FRACTION_F;
        int y = other & FRACTION_F;
        if (scale == 0xff || second == 0xff) {
            if (scale != 0xff) {
                return y != 0 ? NAN_F : sign;
            }
            return x != 0 || second == 0xff ? NAN_F : sign | INFINITE_F;
        }
        if (second == 0) {
            if (y == 0) {
                return (one & REST_F) == 0 ? NAN_F : sign | INFINITE_F;
            }
            int shift = zeros(y) - 40;
            y <<= shift;
            second = 1 - shift;
        } else {
            y |= LEADING_F;
        }
        if (scale == 0) {
            if (x == 0) {
                return sign;
            }
            int shift = zeros(x) - 40;
            x <<= shift;
            scale = 1 - shift;
        } else {
            x |= LEADING_F;
        }
        scale += 127 - second;
        if (x < y) {
            x <<= 1;
            scale--;
        }
        long whole = (long) x << 29;
        int quotient = (int) (whole / y);
        if (whole % y != 0) {
            quotient |= 1;
        }
        return packed(sign, scale, quotient);
    }

    /** The float of a number whose leading bit is 29, with any exponent. */
    static int packed(int sign, int scale, int of) {
        if (scale >= 0xff) {
            return sign | INFINITE_F;
        }
        if (scale <= 0) {
            int shift = 1 - scale;
            int less = shift > 30 ? 1 : of >>> shift | (of << -shift != 0 ? 1 : 0);
            return sign + (less + 0x1f + (less >>> 6 & 1) >>> 6);
        }
        return sign + (scale - 1 << 23) + (of + 0x1f + (of >>> 6 & 1) >>> 6);
    }

    /** What is left of a float is one, so both ways between floats and doubles are exact here. */
    public static int frem(int one, int other) {
        return d2f(drem(f2d(one), f2d(other)));
    }

    public static int fneg(int of) {
        return of ^ SIGN_F;
    }

    public static int fcmpl(int one, int other) {
        if ((one & REST_F) > INFINITE_F || (other & REST_F) > INFINITE_F) {
            return -1;
        }
        int x = one < 0 ? SIGN_F - one : one;
        int y = other < 0 ? SIGN_F - other : other;
        return x < y ? -1 : x == y ? 0 : 1;
    }

    public static int fcmpg(int one, int other) {
        if ((one & REST_F) > INFINITE_F || (other & REST_F) > INFINITE_F) {
            return 1;
        }
        int x = one < 0 ? SIGN_F - one : one;
        int y = other < 0 ? SIGN_F - other : other;
        return x < y ? -1 : x == y ? 0 : 1;
    }

    // From one kind to another.

    public static long i2d(int of) {
        if (of == 0) {
            return 0;
        }
        long size = of < 0 ? -(long) of : of;
        int shift = zeros(size) - 11;
        return (of & SIGN) + ((long) (1074 - shift) << 52) + (size << shift);
    }

    public static long l2d(long of) {
        if (of == 0) {
            return 0;
        }
        if (of == SIGN) {
            return 0xc3e0L << 48;
        }
        long size = of < 0 ? -of : of;
        int shift = zeros(size) - 2;
        if (shift >= 0) {
            size <<= shift;
        } else {
            size = size >>> 1 | size & 1;
        }
        return (of & SIGN) + ((long) (1083 - shift) << 52) + (size + 0xff + (size >>> 9 & 1) >>> 9);
    }

    public static int i2f(int of) {
        return l2f(of);
    }

    public static int l2f(long of) {
        if (of == 0) {
            return 0;
        }
        if (of == SIGN) {
            return 0xdf00 << 16;
        }
        long size = of < 0 ? -of : of;
        int shift = zeros(size) - 2;
        if (shift >= 0) {
            size <<= shift;
        } else {
            size = size >>> 1 | size & 1;
        }
        return (int) (of >>> 32) & SIGN_F | (187 - shift << 23) + (int) (size + (1L << 37) - 1 + (size >>> 38 & 1) >>> 38);
    }

    public static long f2d(int of) {
        int scale = of >>> 23 & 0xff;
        long fraction = of & FRACTION_F;
        if (scale == 0xff) {
            return fraction != 0 ? NAN : of & SIGN | INFINITE;
        }
        if (scale == 0) {
            if (fraction == 0) {
                return of & SIGN;
            }
            int shift = zeros(fraction) - 40;
            return (of & SIGN) + ((long) (896 - shift) << 52) + (fraction << shift + 29);
        }
        return (of & SIGN) + ((long) (scale + 896) << 52) + (fraction << 29);
    }

    public static int d2f(long of) {
        int sign = (int) (of >>> 32) & SIGN_F;
        long x = of & REST;
        if (x >= INFINITE) {
            return x > INFINITE ? NAN_F : sign | INFINITE_F;
        }
        int scale = (int) (x >>> 52) - 896;
        if (scale < -30) {
            return sign;
        }
        x = x & FRACTION | LEADING;
        return packed(sign, scale, (int) (x >>> 23) | ((x << 41) != 0 ? 1 : 0));
    }

    public static int d2i(long of) {
        int shift = 1075 - ((int) (of >>> 52) & 0x7ff);
        if (shift > 52) {
            return 0;
        }
        if (shift < 22) {
            return (of & REST) > INFINITE ? 0 : of < 0 ? 1 << 31 : ~(1 << 31);
        }
        long size = (of & FRACTION | LEADING) >>> shift;
        if (of < 0) {
            return size > 1L << 31 ? 1 << 31 : (int) -size;
        }
        return size >= 1L << 31 ? ~(1 << 31) : (int) size;
    }

    public static long d2l(long of) {
        int shift = 1075 - ((int) (of >>> 52) & 0x7ff);
        if (shift > 52) {
            return 0;
        }
        if (shift < -10) {
            return (of & REST) > INFINITE ? 0 : of < 0 ? SIGN : REST;
        }
        long size = of & FRACTION | LEADING;
        size = shift < 0 ? size << -shift : size >>> shift;
        return of < 0 ? -size : size;
    }

    public static int f2i(int of) {
        return d2i(f2d(of));
    }

    public static long f2l(int of) {
        return d2l(f2d(of));
    }

    // What Math has beside.

    /** A double as a long, or the other way: the bits are what it is here. */
    public static long bits(long of) {
        return of;
    }

    public static int bits(int of) {
        return of;
    }

    public static long floor(long of) {
        int behind = 1075 - ((int) (of >>> 52) & 0x7ff);
        if (behind <= 0) {
            return of;
        }
        if (behind > 52) {
            return (of & REST) == 0 ? of : of < 0 ? 0xbff0L << 48 : 0;
        }
        long last = (1L << behind) - 1;
        return (of < 0 ? of + last : of) & ~last;
    }

    public static long ceil(long of) {
        return floor(of ^ SIGN) ^ SIGN;
    }

    public static long rint(long of) {
        int behind = 1075 - ((int) (of >>> 52) & 0x7ff);
        if (behind <= 0) {
            return of;
        }
        if (behind > 52) {
            return behind == 53 && (of & FRACTION) != 0 ? of & SIGN | 0x3ff0L << 48 : of & SIGN;
        }
        long last = (1L << behind) - 1;
        return of + (last >>> 1) + (of >>> behind & 1) & ~last;
    }

    /** The whole number that is nearest, of two the greater one. */
    public static long round(long of) {
        int shift = 1074 - ((int) (of >>> 52) & 0x7ff);
        if (shift < 0 || shift > 63) {
            return d2l(of);
        }
        long size = of & FRACTION | LEADING;
        return ((of < 0 ? -size : size) >> shift) + 1 >> 1;
    }
}
