package java.nio.charset;

/** What a charset can write. */
public class CharsetEncoder {
    private final Charset of;

    CharsetEncoder(Charset of) {
        this.of = of;
    }

    public final Charset charset() {
        return of;
    }

    private int most() {
        return of.name().equals("US-ASCII") ? 0x7f : of.name().equals("ISO-8859-1") ? 0xff : 0x10ffff;
    }

    public boolean canEncode(char sign) {
        return sign <= most() && !Character.isSurrogate(sign);
    }

    public boolean canEncode(CharSequence text) {
        int at = 0;
        while (at < text.length()) {
            int sign = Character.codePointAt(text, at);
            if (sign > most() || sign >= 0xd800 && sign < 0xe000) {
                return false;
            }
            at += Character.charCount(sign);
        }
        return true;
    }
}
