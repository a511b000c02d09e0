package java.security;

import java.util.Random;

/** Numbers that are the same in each run. */
public class SecureRandom extends Random {
    public SecureRandom() {
    }

    public SecureRandom(byte[] seed) {
    }

    public byte[] generateSeed(int count) {
        byte[] made = new byte[count];
        nextBytes(made);
        return made;
    }
}
