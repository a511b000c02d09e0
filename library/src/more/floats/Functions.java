package more.floats;

/**
 * The functions of StrictMath, by the formulas that it documents (those of fdlibm): reduce the argument, take a polynomial or a quotient
 * of some on a small interval, put the parts together. `high` and `low` are the halves of a double's bits.
 */
public final class Functions {
    private static final double LN2_HIGH = 6.93147180369123816490e-01;
    private static final double LN2_LOW = 1.90821492927058770002e-10;
    private static final double INV_LN2 = 1.44269504088896338700e+00;
    private static final double HALF_PI = 1.57079632679489655800e+00;
    private static final double HALF_PI_LOW = 6.12323399573676603587e-17;
    private static final double QUARTER_PI = 7.85398163397448278999e-01;
    private static final double PI_LOW = 1.2246467991473531772E-16;
    private static final double TWO_24 = 16777216.0;
    private static final double HUGE = 1.0e300;
    private static final double TINY = 1.0e-300;

    private Functions() {
    }

    private static int high(double of) {
        return (int) (Double.doubleToRawLongBits(of) >>> 32);
    }

    private static int low(double of) {
        return (int) Double.doubleToRawLongBits(of);
    }

    private static double withHigh(double of, int high) {
        return Double.longBitsToDouble(Double.doubleToRawLongBits(of) & 0xffffffffL | (long) high << 32);
    }

    private static double of(int high) {
        return Double.longBitsToDouble((long) high << 32);
    }

    /** Without the low half. */
    private static double top(double of) {
        return Double.longBitsToDouble(Double.doubleToRawLongBits(of) & -1L << 32);
    }

    private static double abs(double of) {
        return Double.longBitsToDouble(Double.doubleToRawLongBits(of) & Soft.REST);
    }

    public static double sqrt(double of) {
        return Double.longBitsToDouble(Soft.sqrt(Double.doubleToRawLongBits(of)));
    }

    public static double floor(double of) {
        return Double.longBitsToDouble(Soft.floor(Double.doubleToRawLongBits(of)));
    }

    /** Times a power of two, rounded once. */
    public static double scalb(double of, int by) {
        double to = of;
        int left = by;
        if (left > 3000 || left < -3000) {
            left = left > 0 ? 3000 : -3000;
        }
        // Below, one step rounds: the others are exact.
        if (left < -1022) {
            int scale = (high(to) >>> 20 & 0x7ff) + left;
            if (scale - left == 0x7ff) {
                return to;
            }
            if (scale > 0) {
                return withHigh(to, high(to) + (left << 20));
            }
            while (left < -500) {
                int step = Math.max(left, -500);
                if ((high(to) >>> 20 & 0x7ff) + step <= 0) {
                    break;
                }
                to *= of(1023 + step << 20);
                left -= step;
            }
            return left < -1022 ? to * of(1 << 20) * 0.0 : to * power(left);
        }
        while (left > 1023) {
            to *= of(0x7fe00000);
            left -= 1023;
        }
        return to * power(left);
    }

    private static double power(int of) {
        return of < -1022 ? 0.0 : of(of + 1023 << 20);
    }

    // Sines.

    private static double sine(double x, double y, boolean hasRest) {
        if ((high(x) & 0x7fffffff) < 0x3e400000 && (int) x == 0) {
            return x;
        }
        double z = x * x;
        double v = z * x;
        double r = 8.33333333332248946124e-03 + z * (-1.98412698298579493134e-04 + z * (2.75573137070700676789e-06
            + z * (-2.50507602534068634195e-08 + z * 1.58969099521155010221e-10)));
        if (!hasRest) {
            return x + v * (-1.66666666666666324348e-01 + z * r);
        }
        return x - (z * (0.5 * y - v * r) - y - v * -1.66666666666666324348e-01);
    }

    private static double cosine(double x, double y) {
        int ix = high(x) & 0x7fffffff;
        if (ix < 0x3e400000 && (int) x == 0) {
            return 1.0;
        }
        double z = x * x;
        double r = z * (4.16666666666666019037e-02 + z * (-1.38888888888741095749e-03 + z * (2.48015872894767294178e-05
            + z * (-2.75573143513906633035e-07 + z * (2.08757232129817482790e-09 + z * -1.13596475577881948265e-11)))));
        if (ix < 0x3fd33333) {
            return 1.0 - (0.5 * z - (z * r - x * y));
        }
        double qx = ix > 0x3fe90000 ? 0.28125 : of(ix - 0x00200000);
        double hz = 0.5 * z - qx;
        return 1.0 - qx - (hz - (z * r - x * y));
    }

    private static double tangent(double x, double y, int iy) {
        int hx = high(x);
        int ix = hx & 0x7fffffff;
        if (ix < 0x3e300000 && (int) x == 0) {
            if ((ix | low(x) | iy + 1) == 0) {
                return 1.0 / abs(x);
            }
            if (iy == 1) {
                return x;
            }
            double w = x + y;
            double z = top(w);
            double v = y - (z - x);
            double a = -1.0 / w;
            double t = top(a);
            return t + a * (1.0 + t * z + t * v);
        }
        if (ix >= 0x3fe59428) {
            if (hx < 0) {
                x = -x;
                y = -y;
            }
            x = QUARTER_PI - x + (3.06161699786838301793e-17 - y);
            y = 0.0;
        }
        double z = x * x;
        double w = z * z;
        double r = 1.33333333333201242699e-01 + w * (2.18694882948595424599e-02 + w * (3.59207910759131235356e-03
            + w * (5.88041240820264096874e-04 + w * (7.81794442939557092300e-05 + w * -1.85586374855275456654e-05))));
        double v = z * (5.39682539762260521377e-02 + w * (8.86323982359930005737e-03 + w * (1.45620945432529025516e-03
            + w * (2.46463134818469906812e-04 + w * (7.14072491382608190305e-05 + w * 2.59073051863633712884e-05)))));
        double s = z * x;
        r = y + z * (s * (r + v) + y);
        r += 3.33333333333334091986e-01 * s;
        w = x + r;
        if (ix >= 0x3fe59428) {
            v = iy;
            return (1 - (hx >> 30 & 2)) * (v - 2.0 * (x - (w * w / (w + v) - r)));
        }
        if (iy == 1) {
            return w;
        }
        z = top(w);
        v = r - (z - x);
        double a = -1.0 / w;
        double t = top(a);
        s = 1.0 + t * z;
        return t + a * (s + t * v);
    }

    /** The multiple of a quarter turn next to an angle, and in `rest` what is left of the angle, in two parts. */
    private static int quarters(double x, double[] rest) {
        int hx = high(x);
        int ix = hx & 0x7fffffff;
        if (ix < 0x4002d97c) {
            double sign = hx > 0 ? 1.0 : -1.0;
            double z = x - sign * 1.57079632673412561417e+00;
            double w = sign * 6.07710050650619224932e-11;
            if (ix == 0x3ff921fb) {
                z -= sign * 6.07710050630396597660e-11;
                w = sign * 2.02226624879595063154e-21;
            }
            rest[0] = z - w;
            rest[1] = z - rest[0] - w;
            return hx > 0 ? 1 : -1;
        }
        if (ix <= 0x413921fb) {
            double t = abs(x);
            int n = (int) (t * 6.36619772367581382433e-01 + 0.5);
            double fn = n;
            double r = t - fn * 1.57079632673412561417e+00;
            double w = fn * 6.07710050650619224932e-11;
            rest[0] = r - w;
            if (n >= 32 || ix == (int) (Double.doubleToRawLongBits(fn * HALF_PI) >>> 32)) {
                int j = ix >> 20;
                if (j - (high(rest[0]) >> 20 & 0x7ff) > 16) {
                    t = r;
                    w = fn * 6.07710050630396597660e-11;
                    r = t - w;
                    w = fn * 2.02226624879595063154e-21 - (t - r - w);
                    rest[0] = r - w;
                    if (j - (high(rest[0]) >> 20 & 0x7ff) > 49) {
                        t = r;
                        w = fn * 2.02226624871116645580e-21;
                        r = t - w;
                        w = fn * 8.47842766036889956997e-32 - (t - r - w);
                        rest[0] = r - w;
                    }
                }
            }
            rest[1] = r - rest[0] - w;
            if (hx < 0) {
                rest[0] = -rest[0];
                rest[1] = -rest[1];
                return -n;
            }
            return n;
        }
        int e0 = (ix >> 20) - 1046;
        double z = withHigh(x, ix - (e0 << 20));
        double[] parts = new double[3];
        for (int at = 0; at < 2; at++) {
            parts[at] = (int) z;
            z = (z - parts[at]) * TWO_24;
        }
        parts[2] = z;
        int count = 3;
        while (parts[count - 1] == 0.0) {
            count--;
        }
        int n = TwoOverPi.quarters(parts, rest, e0, count);
        if (hx < 0) {
            rest[0] = -rest[0];
            rest[1] = -rest[1];
            return -n;
        }
        return n;
    }

    public static double sin(double x) {
        int ix = high(x) & 0x7fffffff;
        if (ix <= 0x3fe921fb) {
            return sine(x, 0.0, false);
        }
        if (ix >= 0x7ff00000) {
            return x - x;
        }
        double[] y = new double[2];
        switch (quarters(x, y) & 3) {
            case 0:
                return sine(y[0], y[1], true);
            case 1:
                return cosine(y[0], y[1]);
            case 2:
                return -sine(y[0], y[1], true);
            default:
                return -cosine(y[0], y[1]);
        }
    }

    public static double cos(double x) {
        int ix = high(x) & 0x7fffffff;
        if (ix <= 0x3fe921fb) {
            return cosine(x, 0.0);
        }
        if (ix >= 0x7ff00000) {
            return x - x;
        }
        double[] y = new double[2];
        switch (quarters(x, y) & 3) {
            case 0:
                return cosine(y[0], y[1]);
            case 1:
                return -sine(y[0], y[1], true);
            case 2:
                return -cosine(y[0], y[1]);
            default:
                return sine(y[0], y[1], true);
        }
    }

    public static double tan(double x) {
        int ix = high(x) & 0x7fffffff;
        if (ix <= 0x3fe921fb) {
            return tangent(x, 0.0, 1);
        }
        if (ix >= 0x7ff00000) {
            return x - x;
        }
        double[] y = new double[2];
        int n = quarters(x, y);
        return tangent(y[0], y[1], 1 - ((n & 1) << 1));
    }

    // The ways back.

    private static double arcP(double t) {
        return t * (1.66666666666666657415e-01 + t * (-3.25565818622400915405e-01 + t * (2.01212532134862925881e-01
            + t * (-4.00555345006794114027e-02 + t * (7.91534994289814532176e-04 + t * 3.47933107596021167570e-05)))));
    }

    private static double arcQ(double t) {
        return 1.0 + t * (-2.40339491173441421878e+00 + t * (2.02094576023350569471e+00
            + t * (-6.88283971605453293030e-01 + t * 7.70381505559019352791e-02)));
    }

    public static double asin(double x) {
        int hx = high(x);
        int ix = hx & 0x7fffffff;
        if (ix >= 0x3ff00000) {
            return (ix - 0x3ff00000 | low(x)) == 0 ? x * HALF_PI + x * HALF_PI_LOW : (x - x) / (x - x);
        }
        if (ix < 0x3fe00000) {
            if (ix < 0x3e400000) {
                return x;
            }
            double t = x * x;
            return x + x * (arcP(t) / arcQ(t));
        }
        double w = 1.0 - abs(x);
        double t = w * 0.5;
        double p = arcP(t);
        double q = arcQ(t);
        double s = sqrt(t);
        if (ix >= 0x3fef3333) {
            w = p / q;
            t = HALF_PI - (2.0 * (s + s * w) - HALF_PI_LOW);
        } else {
            w = top(s);
            double c = (t - w * w) / (s + w);
            double r = p / q;
            p = 2.0 * s * r - (HALF_PI_LOW - 2.0 * c);
            q = QUARTER_PI - 2.0 * w;
            t = QUARTER_PI - (p - q);
        }
        return hx > 0 ? t : -t;
    }

    public static double acos(double x) {
        int hx = high(x);
        int ix = hx & 0x7fffffff;
        if (ix >= 0x3ff00000) {
            if ((ix - 0x3ff00000 | low(x)) == 0) {
                return hx > 0 ? 0.0 : Math.PI + 2.0 * HALF_PI_LOW;
            }
            return (x - x) / (x - x);
        }
        if (ix < 0x3fe00000) {
            if (ix <= 0x3c600000) {
                return HALF_PI + HALF_PI_LOW;
            }
            double z = x * x;
            double r = arcP(z) / arcQ(z);
            return HALF_PI - (x - (HALF_PI_LOW - x * r));
        }
        if (hx < 0) {
            double z = (1.0 + x) * 0.5;
            double s = sqrt(z);
            double w = arcP(z) / arcQ(z) * s - HALF_PI_LOW;
            return Math.PI - 2.0 * (s + w);
        }
        double z = (1.0 - x) * 0.5;
        double s = sqrt(z);
        double df = top(s);
        double c = (z - df * df) / (s + df);
        double w = arcP(z) / arcQ(z) * s + c;
        return 2.0 * (df + w);
    }

    public static double atan(double x) {
        int hx = high(x);
        int ix = hx & 0x7fffffff;
        if (ix >= 0x44100000) {
            return x != x ? x : hx > 0 ? HALF_PI + HALF_PI_LOW : -HALF_PI - HALF_PI_LOW;
        }
        double above = 0.0;
        double below = 0.0;
        boolean isSmall = ix < 0x3fdc0000;
        if (isSmall) {
            if (ix < 0x3e200000) {
                return x;
            }
        } else {
            x = abs(x);
            if (ix < 0x3fe60000) {
                above = 4.63647609000806093515e-01;
                below = 2.26987774529616870924e-17;
                x = (2.0 * x - 1.0) / (2.0 + x);
            } else if (ix < 0x3ff30000) {
                above = QUARTER_PI;
                below = 3.06161699786838301793e-17;
                x = (x - 1.0) / (x + 1.0);
            } else if (ix < 0x40038000) {
                above = 9.82793723247329054082e-01;
                below = 1.39033110312309984516e-17;
                x = (x - 1.5) / (1.0 + 1.5 * x);
            } else {
                above = HALF_PI;
                below = HALF_PI_LOW;
                x = -1.0 / x;
            }
        }
        double z = x * x;
        double w = z * z;
        double one = z * (3.33333333333329318027e-01 + w * (1.42857142725034663711e-01 + w * (9.09088713343650656196e-02
            + w * (6.66107313738753120669e-02 + w * (4.97687799461593236017e-02 + w * 1.62858201153657823623e-02)))));
        double two = w * (-1.99999999998764832476e-01 + w * (-1.11111104054623557880e-01 + w * (-7.69187620504482999495e-02
            + w * (-5.83357013379057348645e-02 + w * -3.65315727442169155270e-02))));
        if (isSmall) {
            return x - x * (one + two);
        }
        z = above - (x * (one + two) - below - x);
        return hx < 0 ? -z : z;
    }

    public static double atan2(double y, double x) {
        if (x != x || y != y) {
            return x + y;
        }
        int hx = high(x);
        int ix = hx & 0x7fffffff;
        int hy = high(y);
        int iy = hy & 0x7fffffff;
        if (x == 1.0) {
            return atan(y);
        }
        if (y == 0.0) {
            return hx >= 0 ? y : hy >= 0 ? Math.PI + TINY : -Math.PI - TINY;
        }
        if (x == 0.0) {
            return hy < 0 ? -HALF_PI - TINY : HALF_PI + TINY;
        }
        double sign = hy < 0 ? -1.0 : 1.0;
        if (ix == 0x7ff00000) {
            if (iy == 0x7ff00000) {
                return sign * (hx > 0 ? QUARTER_PI : 3.0 * QUARTER_PI);
            }
            return hx > 0 ? sign * 0.0 : sign * Math.PI;
        }
        if (iy == 0x7ff00000) {
            return sign * HALF_PI;
        }
        int k = iy - ix >> 20;
        double z = k > 60 ? HALF_PI + 0.5 * PI_LOW : hx < 0 && k < -60 ? 0.0 : atan(abs(y / x));
        if (hx >= 0) {
            return hy < 0 ? -z : z;
        }
        return hy >= 0 ? Math.PI - (z - PI_LOW) : z - PI_LOW - Math.PI;
    }

    // Exponentials and logarithms.

    private static double near(double t) {
        return t * (1.66666666666666019037e-01 + t * (-2.77777777770155933842e-03 + t * (6.61375632143793436117e-05
            + t * (-1.65339022054652515390e-06 + t * 4.13813679705723846039e-08))));
    }

    public static double exp(double x) {
        int hx = high(x);
        boolean isNegative = hx < 0;
        hx &= 0x7fffffff;
        if (hx >= 0x40862e42) {
            if (hx >= 0x7ff00000) {
                return x != x ? x + x : isNegative ? 0.0 : x;
            }
            if (x > 7.09782712893383973096e+02) {
                return Double.POSITIVE_INFINITY;
            }
            if (x < -7.45133219101941108420e+02) {
                return 0.0;
            }
        }
        double above = 0.0;
        double below = 0.0;
        int k = 0;
        if (hx > 0x3fd62e42) {
            if (hx < 0x3ff0a2b2) {
                above = isNegative ? x + LN2_HIGH : x - LN2_HIGH;
                below = isNegative ? -LN2_LOW : LN2_LOW;
                k = isNegative ? -1 : 1;
            } else {
                k = (int) (INV_LN2 * x + (isNegative ? -0.5 : 0.5));
                above = x - k * LN2_HIGH;
                below = k * LN2_LOW;
            }
            x = above - below;
        } else if (hx < 0x3e300000) {
            return 1.0 + x;
        }
        double c = x - near(x * x);
        if (k == 0) {
            return 1.0 - (x * c / (c - 2.0) - x);
        }
        double y = 1.0 - (below - x * c / (2.0 - c) - above);
        if (k >= -1021) {
            return withHigh(y, high(y) + (k << 20));
        }
        return withHigh(y, high(y) + (k + 1000 << 20)) * of(23 << 20);
    }

    public static double expm1(double x) {
        int hx = high(x);
        boolean isNegative = hx < 0;
        hx &= 0x7fffffff;
        if (hx >= 0x4043687a) {
            if (hx >= 0x40862e42) {
                if (hx >= 0x7ff00000) {
                    return x != x ? x + x : isNegative ? -1.0 : x;
                }
                if (x > 7.09782712893383973096e+02) {
                    return Double.POSITIVE_INFINITY;
                }
            }
            if (isNegative) {
                return TINY - 1.0;
            }
        }
        double c = 0.0;
        int k = 0;
        if (hx > 0x3fd62e42) {
            double above;
            double below;
            if (hx < 0x3ff0a2b2) {
                above = isNegative ? x + LN2_HIGH : x - LN2_HIGH;
                below = isNegative ? -LN2_LOW : LN2_LOW;
                k = isNegative ? -1 : 1;
            } else {
                k = (int) (INV_LN2 * x + (isNegative ? -0.5 : 0.5));
                above = x - k * LN2_HIGH;
                below = k * LN2_LOW;
            }
            x = above - below;
            c = above - x - below;
        } else if (hx < 0x3c900000) {
            return x;
        }
        double half = 0.5 * x;
        double hxs = x * half;
        double r1 = 1.0 + hxs * (-3.33333333333331316428e-02 + hxs * (1.58730158725481460165e-03 + hxs * (-7.93650757867487942473e-05
            + hxs * (4.00821782732936239552e-06 + hxs * -2.01099218183624371326e-07))));
        double t = 3.0 - r1 * half;
        double e = hxs * ((r1 - t) / (6.0 - x * t));
        if (k == 0) {
            return x - (x * e - hxs);
        }
        e = x * (e - c) - c;
        e -= hxs;
        if (k == -1) {
            return 0.5 * (x - e) - 0.5;
        }
        if (k == 1) {
            return x < -0.25 ? -2.0 * (e - (x + 0.5)) : 1.0 + 2.0 * (x - e);
        }
        double y;
        if (k <= -2 || k > 56) {
            y = 1.0 - (e - x);
            y = withHigh(y, high(y) + (k << 20));
            return y - 1.0;
        }
        if (k < 20) {
            y = of(0x3ff00000 - (0x200000 >> k)) - (e - x);
        } else {
            y = x - (e + of(0x3ff - k << 20));
            y += 1.0;
        }
        return withHigh(y, high(y) + (k << 20));
    }

    public static double log(double x) {
        int hx = high(x);
        int k = 0;
        if (hx < 0x00100000) {
            if ((hx & 0x7fffffff | low(x)) == 0) {
                return Double.NEGATIVE_INFINITY;
            }
            if (hx < 0) {
                return Double.NaN;
            }
            k -= 54;
            x *= 18014398509481984.0;
            hx = high(x);
        }
        if (hx >= 0x7ff00000) {
            return x + x;
        }
        k += (hx >> 20) - 1023;
        hx &= 0xfffff;
        int i = hx + 0x95f64 & 0x100000;
        x = withHigh(x, hx | i ^ 0x3ff00000);
        k += i >> 20;
        double f = x - 1.0;
        double dk = k;
        if ((0xfffff & 2 + hx) < 3) {
            if (f == 0.0) {
                return k == 0 ? 0.0 : dk * LN2_HIGH + dk * LN2_LOW;
            }
            double r = f * f * (0.5 - 0.33333333333333333 * f);
            return k == 0 ? f - r : dk * LN2_HIGH - (r - dk * LN2_LOW - f);
        }
        double s = f / (2.0 + f);
        double z = s * s;
        double w = z * z;
        double one = w * (3.999999999940941908e-01 + w * (2.222219843214978396e-01 + w * 1.531383769920937332e-01));
        double two = z * (6.666666666666735130e-01 + w * (2.857142874366239149e-01 + w * (1.818357216161805012e-01
            + w * 1.479819860511658591e-01)));
        double r = two + one;
        if ((hx - 0x6147a | 0x6b851 - hx) > 0) {
            double hfsq = 0.5 * f * f;
            return k == 0 ? f - (hfsq - s * (hfsq + r)) : dk * LN2_HIGH - (hfsq - (s * (hfsq + r) + dk * LN2_LOW) - f);
        }
        return k == 0 ? f - s * (f - r) : dk * LN2_HIGH - (s * (f - r) - dk * LN2_LOW - f);
    }

    public static double log10(double x) {
        int hx = high(x);
        int k = 0;
        if (hx < 0x00100000) {
            if ((hx & 0x7fffffff | low(x)) == 0) {
                return Double.NEGATIVE_INFINITY;
            }
            if (hx < 0) {
                return Double.NaN;
            }
            k -= 54;
            x *= 18014398509481984.0;
            hx = high(x);
        }
        if (hx >= 0x7ff00000) {
            return x + x;
        }
        k += (hx >> 20) - 1023;
        int i = k >>> 31;
        double y = k + i;
        x = withHigh(x, hx & 0xfffff | 0x3ff - i << 20);
        double z = y * 3.69423907715893078616e-13 + 4.34294481903251816668e-01 * log(x);
        return z + y * 3.01029995663611771306e-01;
    }

    public static double log1p(double x) {
        int hx = high(x);
        int ax = hx & 0x7fffffff;
        int k = 1;
        double f = 0.0;
        int hu = 0;
        double c = 0.0;
        if (hx < 0x3fda827a) {
            if (ax >= 0x3ff00000) {
                return x == -1.0 ? Double.NEGATIVE_INFINITY : Double.NaN;
            }
            if (ax < 0x3e200000) {
                return ax < 0x3c900000 ? x : x - x * x * 0.5;
            }
            if (hx > 0 || hx <= 0xbfd2bec3) {
                k = 0;
                f = x;
                hu = 1;
            }
        }
        if (hx >= 0x7ff00000) {
            return x + x;
        }
        if (k != 0) {
            double u;
            if (hx < 0x43400000) {
                u = 1.0 + x;
                hu = high(u);
                k = (hu >> 20) - 1023;
                c = k > 0 ? 1.0 - (u - x) : x - (u - 1.0);
                c /= u;
            } else {
                u = x;
                hu = high(u);
                k = (hu >> 20) - 1023;
            }
            hu &= 0xfffff;
            if (hu < 0x6a09e) {
                u = withHigh(u, hu | 0x3ff00000);
            } else {
                k++;
                u = withHigh(u, hu | 0x3fe00000);
                hu = 0x00100000 - hu >> 2;
            }
            f = u - 1.0;
        }
        double hfsq = 0.5 * f * f;
        if (hu == 0) {
            if (f == 0.0) {
                return k == 0 ? 0.0 : k * LN2_HIGH + (c + k * LN2_LOW);
            }
            double r = hfsq * (1.0 - 0.66666666666666666 * f);
            return k == 0 ? f - r : k * LN2_HIGH - (r - (k * LN2_LOW + c) - f);
        }
        double s = f / (2.0 + f);
        double z = s * s;
        double r = z * (6.666666666666735130e-01 + z * (3.999999999940941908e-01 + z * (2.857142874366239149e-01 + z * (2.222219843214978396e-01
            + z * (1.818357216161805012e-01 + z * (1.531383769920937332e-01 + z * 1.479819860511658591e-01))))));
        return k == 0 ? f - (hfsq - s * (hfsq + r)) : k * LN2_HIGH - (hfsq - (s * (hfsq + r) + (k * LN2_LOW + c)) - f);
    }

    public static double sinh(double x) {
        int ix = high(x) & 0x7fffffff;
        if (ix >= 0x7ff00000) {
            return x + x;
        }
        double h = high(x) < 0 ? -0.5 : 0.5;
        if (ix < 0x40360000) {
            if (ix < 0x3e300000) {
                return x;
            }
            double t = expm1(abs(x));
            return ix < 0x3ff00000 ? h * (2.0 * t - t * t / (t + 1.0)) : h * (t + t / (t + 1.0));
        }
        if (ix < 0x40862e42) {
            return h * exp(abs(x));
        }
        if (isNotTooFar(ix, low(x))) {
            double w = exp(0.5 * abs(x));
            return h * w * w;
        }
        return x * HUGE * HUGE;
    }

    private static boolean isNotTooFar(int ix, int low) {
        return ix < 0x408633ce || ix == 0x408633ce && (low & 0xffffffffL) <= 0x8fb9f87dL;
    }

    public static double cosh(double x) {
        int ix = high(x) & 0x7fffffff;
        if (ix >= 0x7ff00000) {
            return x * x;
        }
        if (ix < 0x3fd62e43) {
            double t = expm1(abs(x));
            double w = 1.0 + t;
            return ix < 0x3c800000 ? w : 1.0 + t * t / (w + w);
        }
        if (ix < 0x40360000) {
            double t = exp(abs(x));
            return 0.5 * t + 0.5 / t;
        }
        if (ix < 0x40862e42) {
            return 0.5 * exp(abs(x));
        }
        if (isNotTooFar(ix, low(x))) {
            double w = exp(0.5 * abs(x));
            return 0.5 * w * w;
        }
        return Double.POSITIVE_INFINITY;
    }

    public static double tanh(double x) {
        int ix = high(x) & 0x7fffffff;
        boolean isNegative = high(x) < 0;
        if (ix >= 0x7ff00000) {
            return isNegative ? 1.0 / x - 1.0 : 1.0 / x + 1.0;
        }
        double z;
        if (ix < 0x40360000) {
            if (ix < 0x3c800000) {
                return x * (1.0 + x);
            }
            if (ix >= 0x3ff00000) {
                z = 1.0 - 2.0 / (expm1(2.0 * abs(x)) + 2.0);
            } else {
                double t = expm1(-2.0 * abs(x));
                z = -t / (t + 2.0);
            }
        } else {
            z = 1.0 - TINY;
        }
        return isNegative ? -z : z;
    }

    public static double cbrt(double x) {
        int hx = high(x);
        int sign = hx & 0x80000000;
        hx ^= sign;
        if (hx >= 0x7ff00000) {
            return x + x;
        }
        if ((hx | low(x)) == 0) {
            return x;
        }
        x = abs(x);
        double t;
        if (hx < 0x00100000) {
            t = of(0x43500000) * x;
            t = of(high(t) / 3 + 696219795);
        } else {
            t = of(hx / 3 + 715094163);
        }
        double r = t * t / x;
        double s = 5.42857142857142815906e-01 + r * t;
        t *= 3.57142857142857150787e-01 + 1.60714285714285720630e+00 / (s + 1.41428571428571436819e+00 + -7.05306122448979611050e-01 / s);
        t = of(high(t) + 1);
        s = t * t;
        r = x / s;
        double w = t + t;
        r = (r - t) / (w + r);
        t = t + t * r;
        return withHigh(t, high(t) | sign);
    }

    public static double hypot(double x, double y) {
        double a = abs(x);
        double b = abs(y);
        if (b > a) {
            a = b;
            b = abs(x);
        }
        int ha = high(a);
        int hb = high(b);
        if (ha >= 0x7ff00000 || hb >= 0x7ff00000) {
            return a == Double.POSITIVE_INFINITY || b == Double.POSITIVE_INFINITY ? Double.POSITIVE_INFINITY : a + b;
        }
        if (ha - hb > 0x3c00000) {
            return a + b;
        }
        int k = 0;
        if (ha > 0x5f300000) {
            ha -= 0x25800000;
            hb -= 0x25800000;
            k += 600;
            a = withHigh(a, ha);
            b = withHigh(b, hb);
        }
        if (hb < 0x20b00000) {
            if (hb < 0x00100000) {
                if (b == 0.0) {
                    return a;
                }
                // fdlibm keeps ha and hb of before, so the parts below are unlike in size, and the last place of the sum may be another.
                b *= of(0x7fd00000);
                a *= of(0x7fd00000);
                k -= 1022;
            } else {
                ha += 0x25800000;
                hb += 0x25800000;
                k -= 600;
                a = withHigh(a, ha);
                b = withHigh(b, hb);
            }
        }
        double w = a - b;
        if (w > b) {
            double one = of(ha);
            double two = a - one;
            w = sqrt(one * one - (b * -b - two * (a + one)));
        } else {
            a = a + a;
            double top = of(hb);
            double rest = b - top;
            double one = of(ha + 0x00100000);
            double two = a - one;
            w = sqrt(one * top - (w * -w - (one * rest + two * b)));
        }
        return k != 0 ? of(0x3ff00000 + (k << 20)) * w : w;
    }

    public static double pow(double x, double y) {
        if (y == 0.0) {
            return 1.0;
        }
        if (x != x || y != y) {
            return x + y;
        }
        int hx = high(x);
        int lx = low(x);
        int hy = high(y);
        int ly = low(y);
        int ix = hx & 0x7fffffff;
        int iy = hy & 0x7fffffff;
        int whole = hx < 0 ? wholeness(iy, ly) : 0;
        if (ly == 0) {
            if (iy == 0x7ff00000) {
                if ((ix - 0x3ff00000 | lx) == 0) {
                    return y - y;
                }
                return ix >= 0x3ff00000 ? hy >= 0 ? y : 0.0 : hy < 0 ? -y : 0.0;
            }
            if (iy == 0x3ff00000) {
                return hy < 0 ? 1.0 / x : x;
            }
            if (hy == 0x40000000) {
                return x * x;
            }
            if (hy == 0x3fe00000 && x >= -Double.MAX_VALUE) {
                return sqrt(x + 0.0);
            }
        }
        double ax = abs(x);
        if (lx == 0 && (ix == 0x7ff00000 || ix == 0 || ix == 0x3ff00000)) {
            double z = hy < 0 ? 1.0 / ax : ax;
            if (hx < 0) {
                if ((ix - 0x3ff00000 | whole) == 0) {
                    return Double.NaN;
                }
                return whole == 1 ? -z : z;
            }
            return z;
        }
        if (hx < 0 && whole == 0) {
            return Double.NaN;
        }
        double sign = hx < 0 && whole == 1 ? -1.0 : 1.0;
        double one;
        double two;
        if (iy > 0x41e00000) {
            if (iy > 0x43f00000) {
                if (ix <= 0x3fefffff) {
                    return hy < 0 ? Double.POSITIVE_INFINITY : 0.0;
                }
                if (ix >= 0x3ff00000) {
                    return hy > 0 ? Double.POSITIVE_INFINITY : 0.0;
                }
            }
            if (ix < 0x3fefffff) {
                return hy < 0 ? sign * Double.POSITIVE_INFINITY : sign * 0.0;
            }
            if (ix > 0x3ff00000) {
                return hy > 0 ? sign * Double.POSITIVE_INFINITY : sign * 0.0;
            }
            double t = ax - 1.0;
            double w = t * t * (0.5 - t * (0.3333333333333333333333 - t * 0.25));
            double u = 1.44269502162933349609e+00 * t;
            double v = t * 1.92596299112661746887e-08 - w * INV_LN2;
            one = top(u + v);
            two = v - (one - u);
        } else {
            int n = 0;
            if (ix < 0x00100000) {
                ax *= 9007199254740992.0;
                n -= 53;
                ix = high(ax);
            }
            n += (ix >> 20) - 0x3ff;
            int j = ix & 0xfffff;
            ix = j | 0x3ff00000;
            int k = 0;
            if (j > 0x3988e) {
                if (j < 0xbb67a) {
                    k = 1;
                } else {
                    n++;
                    ix -= 0x00100000;
                }
            }
            ax = withHigh(ax, ix);
            double base = k == 0 ? 1.0 : 1.5;
            double u = ax - base;
            double v = 1.0 / (ax + base);
            double ss = u * v;
            double sHigh = top(ss);
            double tHigh = of((ix >> 1 | 0x20000000) + 0x00080000 + (k << 18));
            double tLow = ax - (tHigh - base);
            double sLow = v * (u - sHigh * tHigh - sHigh * tLow);
            double s2 = ss * ss;
            double r = s2 * s2 * (5.99999999999994648725e-01 + s2 * (4.28571428578550184252e-01 + s2 * (3.33333329818377432918e-01
                + s2 * (2.72728123808534006489e-01 + s2 * (2.30660745775561754067e-01 + s2 * 2.06975017800338417784e-01)))));
            r += sLow * (sHigh + ss);
            s2 = sHigh * sHigh;
            tHigh = top(3.0 + s2 + r);
            tLow = r - (tHigh - 3.0 - s2);
            u = sHigh * tHigh;
            v = sLow * tHigh + tLow * ss;
            double pHigh = top(u + v);
            double pLow = v - (pHigh - u);
            double zHigh = 9.61796700954437255859e-01 * pHigh;
            double zLow = -7.02846165095275826516e-09 * pHigh + pLow * 9.61796693925975554329e-01 + (k == 0 ? 0.0 : 1.35003920212974897128e-08);
            double t = n;
            double dHigh = k == 0 ? 0.0 : 5.84962487220764160156e-01;
            one = top(zHigh + zLow + dHigh + t);
            two = zLow - (one - t - dHigh - zHigh);
        }
        double first = top(y);
        double pLow = (y - first) * one + y * two;
        double pHigh = first * one;
        double z = pLow + pHigh;
        int j = high(z);
        int i = low(z);
        if (j >= 0x40900000) {
            if ((j - 0x40900000 | i) != 0 || pLow + 8.0085662595372944372e-0017 > z - pHigh) {
                return sign * Double.POSITIVE_INFINITY;
            }
        } else if ((j & 0x7fffffff) >= 0x4090cc00) {
            if ((j - 0xc090cc00 | i) != 0 || pLow <= z - pHigh) {
                return sign * 0.0;
            }
        }
        i = j & 0x7fffffff;
        int k = (i >> 20) - 0x3ff;
        int n = 0;
        if (i > 0x3fe00000) {
            n = j + (0x00100000 >> k + 1);
            k = ((n & 0x7fffffff) >> 20) - 0x3ff;
            double t = of(n & ~(0x000fffff >> k));
            n = (n & 0x000fffff | 0x00100000) >> 20 - k;
            if (j < 0) {
                n = -n;
            }
            pHigh -= t;
        }
        double t = top(pLow + pHigh);
        double u = t * 6.93147182464599609375e-01;
        double v = (pLow - (t - pHigh)) * 6.93147180559945286227e-01 + t * -1.90465429995776804525e-09;
        z = u + v;
        double w = v - (z - u);
        t = z * z;
        double t1 = z - near(t);
        double r = z * t1 / (t1 - 2.0) - (w + z * w);
        z = 1.0 - (r - z);
        j = high(z) + (n << 20);
        return sign * (j >> 20 <= 0 ? scalb(z, n) : withHigh(z, j));
    }

    /** 0 where a number is none that is whole, 1 where it is an odd one, 2 where it is even. */
    private static int wholeness(int iy, int ly) {
        if (iy >= 0x43400000) {
            return 2;
        }
        if (iy >= 0x3ff00000) {
            int k = (iy >> 20) - 0x3ff;
            if (k > 20) {
                int j = ly >>> 52 - k;
                return j << 52 - k == ly ? 2 - (j & 1) : 0;
            }
            if (ly == 0) {
                int j = iy >> 20 - k;
                return j << 20 - k == iy ? 2 - (j & 1) : 0;
            }
        }
        return 0;
    }

    public static double remainder(double x, double p) {
        if (x != x || p != p || p == 0.0 || abs(x) == Double.POSITIVE_INFINITY) {
            return Double.NaN;
        }
        int sign = high(x) & 0x80000000;
        p = abs(p);
        if (high(p) <= 0x7fdfffff) {
            x = x % (p + p);
        }
        x = abs(x);
        if (x == p) {
            return sign == 0 ? 0.0 : -0.0;
        }
        if (high(p) < 0x00200000) {
            if (x + x > p) {
                x -= p;
                if (x + x >= p) {
                    x -= p;
                }
            }
        } else {
            double half = 0.5 * p;
            if (x > half) {
                x -= p;
                if (x >= half) {
                    x -= p;
                }
            }
        }
        return withHigh(x, high(x) ^ sign);
    }
}
