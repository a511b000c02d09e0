package more.floats;

/** The quarter turns of a large angle, by as many digits of 2/pi as it needs: as fdlibm has it. */
final class TwoOverPi {
    private static final int[] DIGITS = {
        0xA2F983, 0x6E4E44, 0x1529FC, 0x2757D1, 0xF534DD, 0xC0DB62, 0x95993C, 0x439041, 0xFE5163, 0xABDEBB, 0xC561B7,
        0x246E3A, 0x424DD2, 0xE00649, 0x2EEA09, 0xD1921C, 0xFE1DEB, 0x1CB129, 0xA73EE8, 0x8235F5, 0x2EBB44, 0x84E99C,
        0x7026B4, 0x5F7E41, 0x3991D6, 0x398353, 0x39F49C, 0x845F8B, 0xBDF928, 0x3B1FF8, 0x97FFDE, 0x05980F, 0xEF2F11,
        0x8B5A0A, 0x6D1F6D, 0x367ECF, 0x27CB09, 0xB74F46, 0x3F669E, 0x5FEA2D, 0x7527BA, 0xC7EBE5, 0xF17B3D, 0x0739F7,
        0x8A5292, 0xEA6BFB, 0x5FB11F, 0x8D5D08, 0x560330, 0x46FC7B, 0x6BABF0, 0xCFBC20, 0x9AF436, 0x1DA9E3, 0x91615E,
        0xE61B08, 0x659985, 0x5F14A0, 0x68408D, 0xFFD880, 0x4D7327, 0x310606, 0x1556CA, 0x73A8C9, 0x60E27B, 0xC08C6B};
    private static final double TWO_24 = 16777216.0;
    private static final double TWO_M24 = 5.96046447753906250000e-08;

    private TwoOverPi() {
    }

    private static double halfPi(int at) {
        switch (at) {
            case 0:
                return 1.57079625129699707031e+00;
            case 1:
                return 7.54978941586159635335e-08;
            case 2:
                return 5.39030252995776476554e-15;
            case 3:
                return 3.28200341580791294123e-22;
            default:
                return 1.27065575308067607349e-29;
        }
    }

    /** Of the sum of `count` parts of 24 bits, the first one times 2 to the power of `e0`; gives the quarters, the rest in two parts. */
    static int quarters(double[] x, double[] y, int e0, int count) {
        int jk = 4;
        int jx = count - 1;
        int jv = Math.max((e0 - 3) / 24, 0);
        int q0 = e0 - 24 * (jv + 1);
        double[] f = new double[20];
        double[] q = new double[20];
        int[] iq = new int[20];
        for (int i = 0, j = jv - jx; i <= jx + jk; i++, j++) {
            f[i] = j < 0 ? 0.0 : DIGITS[j];
        }
        for (int i = 0; i <= jk; i++) {
            q[i] = sum(x, f, jx, i);
        }
        int jz = jk;
        while (true) {
            double z = q[jz];
            for (int i = 0, j = jz; j > 0; i++, j--) {
                double fw = (int) (TWO_M24 * z);
                iq[i] = (int) (z - TWO_24 * fw);
                z = q[j - 1] + fw;
            }
            z = Functions.scalb(z, q0);
            z -= 8.0 * Functions.floor(z * 0.125);
            int n = (int) z;
            z -= n;
            int ih = 0;
            if (q0 > 0) {
                int i = iq[jz - 1] >> 24 - q0;
                n += i;
                iq[jz - 1] -= i << 24 - q0;
                ih = iq[jz - 1] >> 23 - q0;
            } else if (q0 == 0) {
                ih = iq[jz - 1] >> 23;
            } else if (z >= 0.5) {
                ih = 2;
            }
            if (ih > 0) {
                n++;
                boolean hasCarry = false;
                for (int i = 0; i < jz; i++) {
                    int j = iq[i];
                    if (hasCarry) {
                        iq[i] = 0xffffff - j;
                    } else if (j != 0) {
                        hasCarry = true;
                        iq[i] = 0x1000000 - j;
                    }
                }
                if (q0 == 1) {
                    iq[jz - 1] &= 0x7fffff;
                } else if (q0 == 2) {
                    iq[jz - 1] &= 0x3fffff;
                }
                if (ih == 2) {
                    z = 1.0 - z;
                    if (hasCarry) {
                        z -= Functions.scalb(1.0, q0);
                    }
                }
            }
            if (z == 0.0) {
                int any = 0;
                for (int i = jz - 1; i >= jk; i--) {
                    any |= iq[i];
                }
                if (any == 0) {
                    int k = 1;
                    while (iq[jk - k] == 0) {
                        k++;
                    }
                    for (int i = jz + 1; i <= jz + k; i++) {
                        f[jx + i] = DIGITS[jv + i];
                        q[i] = sum(x, f, jx, i);
                    }
                    jz += k;
                    continue;
                }
            }
            rest(y, q, iq, z, jz, q0, ih);
            return n & 7;
        }
    }

    private static double sum(double[] x, double[] f, int jx, int i) {
        double fw = 0.0;
        for (int j = 0; j <= jx; j++) {
            fw += x[j] * f[jx + i - j];
        }
        return fw;
    }

    private static void rest(double[] y, double[] q, int[] iq, double z, int jz, int q0, int ih) {
        if (z == 0.0) {
            jz--;
            q0 -= 24;
            while (iq[jz] == 0) {
                jz--;
                q0 -= 24;
            }
        } else {
            z = Functions.scalb(z, -q0);
            if (z >= TWO_24) {
                double fw = (int) (TWO_M24 * z);
                iq[jz] = (int) (z - TWO_24 * fw);
                jz++;
                q0 += 24;
                iq[jz] = (int) fw;
            } else {
                iq[jz] = (int) z;
            }
        }
        double fw = Functions.scalb(1.0, q0);
        for (int i = jz; i >= 0; i--) {
            q[i] = fw * iq[i];
            fw *= TWO_M24;
        }
        double[] fq = new double[20];
        for (int i = jz; i >= 0; i--) {
            fw = 0.0;
            for (int k = 0; k <= 4 && k <= jz - i; k++) {
                fw += halfPi(k) * q[i + k];
            }
            fq[jz - i] = fw;
        }
        fw = 0.0;
        for (int i = jz; i >= 0; i--) {
            fw += fq[i];
        }
        y[0] = ih == 0 ? fw : -fw;
        fw = fq[0] - fw;
        for (int i = 1; i <= jz; i++) {
            fw += fq[i];
        }
        y[1] = ih == 0 ? fw : -fw;
    }
}
