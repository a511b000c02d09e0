package more.java.lang;

import java.io.UnsupportedEncodingException;
import java.lang.Boolean;
import java.lang.Byte;
import java.lang.Character;
import java.lang.Integer;
import java.lang.Long;
import java.lang.Short;
import java.lang.String;
import java.lang.StringBuilder;
import java.nio.charset.Charset;
import java.nio.charset.UnsupportedCharsetException;

/** What several members of texts need: letters, encodings, forms. */
final class Texts {
    private static final char UNKNOWN = '\ufffd';

    private Texts() {
    }

    static char lower(char of) {
        if (of >= 'A' && of <= 'Z' || of >= '\u00c0' && of <= '\u00de' && of != '\u00d7') {
            return (char) (of + 32);
        }
        if (of >= '\u0391' && of <= '\u03a9' && of != '\u03a2' || of >= '\u0410' && of <= '\u042f') {
            return (char) (of + 32);
        }
        return of >= '\u0100' && of <= '\u0137' && of != '\u0130' && of % 2 == 0 ? (char) (of + 1) : of;
    }

    static char upper(char of) {
        if (of >= 'a' && of <= 'z' || of >= '\u00e0' && of <= '\u00fe' && of != '\u00f7') {
            return (char) (of - 32);
        }
        if (of >= '\u03b1' && of <= '\u03c9' && of != '\u03c2' || of >= '\u0430' && of <= '\u044f') {
            return (char) (of - 32);
        }
        if (of == '\u00ff' || of == '\u00b5') {
            return of == '\u00ff' ? '\u0178' : '\u039c';
        }
        return of >= '\u0100' && of <= '\u0137' && of != '\u0131' && of % 2 == 1 ? (char) (of - 1) : of;
    }

    static boolean isSameLetter(char one, char other) {
        return upper(one) == upper(other) || lower(upper(one)) == lower(upper(other));
    }

    static Charset charset(String name) throws UnsupportedEncodingException {
        try {
            return Charset.forName(name);
        } catch (UnsupportedCharsetException unknown) {
            throw new UnsupportedEncodingException(name);
        }
    }

    /** The text of a pattern that stands for itself, or null. */
    static String plain(String pattern) {
        StringBuilder made = new StringBuilder();
        for (int at = 0; at < pattern.length(); at++) {
            char next = pattern.charAt(at);
            if (next == '\\' && at + 1 < pattern.length() && !Character.isLetter(pattern.charAt(at + 1))
                    && !Character.isDigit(pattern.charAt(at + 1))) {
                at++;
                made.append(pattern.charAt(at));
            } else if ("\\[](){}.*+?^$|".indexOf(next) >= 0) {
                return null;
            } else {
                made.append(next);
            }
        }
        return made.toString();
    }

    static byte[] encoded(String of, Charset by) {
        String name = by.name();
        if (name.equals("UTF-8")) {
            return utf8(of);
        }
        if (name.startsWith("UTF-16")) {
            return utf16(of, name);
        }
        int most = most(name);
        byte[] made = new byte[of.length()];
        int count = 0;
        for (int at = 0; at < of.length(); at++) {
            char next = of.charAt(at);
            boolean isPair = Character.isHighSurrogate(next) && at + 1 < of.length()
                && Character.isLowSurrogate(of.charAt(at + 1));
            at += isPair ? 1 : 0;
            made[count++] = next <= most ? (byte) next : (byte) '?';
        }
        return cut(made, count);
    }

    private static int most(String name) {
        if (name.equals("US-ASCII")) {
            return 0x7f;
        }
        if (name.equals("ISO-8859-1")) {
            return 0xff;
        }
        throw new NoClassDefFoundError("charset " + name);
    }

    private static byte[] cut(byte[] of, int count) {
        byte[] made = new byte[count];
        for (int at = 0; at < count; at++) {
            made[at] = of[at];
        }
        return made;
    }

    private static byte[] utf8(String of) {
        byte[] made = new byte[of.length() * 3];
        int count = 0;
        for (int at = 0; at < of.length(); at++) {
            int code = of.charAt(at);
            if (code >= 0xd800 && code < 0xe000) {
                boolean isPair = code < 0xdc00 && at + 1 < of.length() && Character.isLowSurrogate(of.charAt(at + 1));
                if (!isPair) {
                    made[count++] = '?';
                    continue;
                }
                at++;
                code = Character.toCodePoint((char) code, of.charAt(at));
                made[count++] = (byte) (0xf0 | code >> 18);
                made[count++] = (byte) (0x80 | code >> 12 & 0x3f);
                made[count++] = (byte) (0x80 | code >> 6 & 0x3f);
                made[count++] = (byte) (0x80 | code & 0x3f);
            } else if (code < 0x80) {
                made[count++] = (byte) code;
            } else if (code < 0x800) {
                made[count++] = (byte) (0xc0 | code >> 6);
                made[count++] = (byte) (0x80 | code & 0x3f);
            } else {
                made[count++] = (byte) (0xe0 | code >> 12);
                made[count++] = (byte) (0x80 | code >> 6 & 0x3f);
                made[count++] = (byte) (0x80 | code & 0x3f);
            }
        }
        return cut(made, count);
    }

    private static byte[] utf16(String of, String name) {
        boolean isMarked = name.equals("UTF-16");
        boolean isLittle = name.equals("UTF-16LE");
        byte[] made = new byte[of.length() * 2 + (isMarked && !of.isEmpty() ? 2 : 0)];
        int count = 0;
        if (isMarked && !of.isEmpty()) {
            made[count++] = (byte) 0xfe;
            made[count++] = (byte) 0xff;
        }
        for (int at = 0; at < of.length(); at++) {
            char next = of.charAt(at);
            made[count++] = (byte) (isLittle ? next : next >> 8);
            made[count++] = (byte) (isLittle ? next >> 8 : next);
        }
        return made;
    }

    static String decoded(byte[] of, int from, int count, Charset by) {
        String name = by.name();
        if (name.equals("UTF-8")) {
            return utf8(of, from, from + count);
        }
        if (name.startsWith("UTF-16")) {
            return utf16(of, from, from + count, name);
        }
        int most = most(name);
        StringBuilder made = new StringBuilder(count);
        for (int at = from; at < from + count; at++) {
            int next = of[at] & 0xff;
            made.append(next <= most ? (char) next : UNKNOWN);
        }
        return made.toString();
    }

    private static String utf16(byte[] of, int from, int to, String name) {
        boolean isLittle = name.equals("UTF-16LE");
        int at = from;
        if (name.equals("UTF-16") && to - from >= 2) {
            int mark = (of[from] & 0xff) << 8 | of[from + 1] & 0xff;
            isLittle = mark == 0xfffe;
            at += mark == 0xfeff || isLittle ? 2 : 0;
        }
        StringBuilder made = new StringBuilder();
        for (; at + 1 < to; at += 2) {
            int one = of[at] & 0xff;
            int two = of[at + 1] & 0xff;
            made.append((char) (isLittle ? two << 8 | one : one << 8 | two));
        }
        return at < to ? made.append(UNKNOWN).toString() : made.toString();
    }

    private static String utf8(byte[] of, int from, int to) {
        StringBuilder made = new StringBuilder(to - from);
        int at = from;
        while (at < to) {
            int first = of[at++] & 0xff;
            if (first < 0x80) {
                made.append((char) first);
                continue;
            }
            int more = first >= 0xf0 && first < 0xf5 ? 3 : first >= 0xe0 && first < 0xf0 ? 2
                : first >= 0xc2 && first < 0xe0 ? 1 : 0;
            int code = more == 3 ? first & 0x07 : more == 2 ? first & 0x0f : first & 0x1f;
            int taken = 0;
            while (taken < more && at < to && isNext(first, taken, of[at] & 0xff)) {
                code = code << 6 | of[at++] & 0x3f;
                taken++;
            }
            if (more == 0 || taken < more) {
                made.append(UNKNOWN);
            } else if (more == 3) {
                made.append((char) (0xd7c0 + (code >> 10))).append((char) (0xdc00 | code & 0x3ff));
            } else {
                made.append((char) code);
            }
        }
        return made.toString();
    }

    private static boolean isNext(int first, int taken, int next) {
        if (next < 0x80 || next > 0xbf || taken > 0) {
            return next >= 0x80 && next <= 0xbf;
        }
        return !(first == 0xe0 && next < 0xa0 || first == 0xed && next > 0x9f
            || first == 0xf0 && next < 0x90 || first == 0xf4 && next > 0x8f);
    }

    /** Forms as Formatter's: a place, flags, a width, how exact, and the conversions %s %d %x %o %c %b %h %n %%. */
    static String format(String form, Object[] values) {
        StringBuilder made = new StringBuilder();
        int value = 0;
        int last = -1;
        for (int at = 0; at < form.length(); at++) {
            char next = form.charAt(at);
            if (next != '%') {
                made.append(next);
                continue;
            }
            int start = at + 1;
            do {
                at++;
                if (at == form.length()) {
                    throw new java.util.UnknownFormatConversionException(start == at ? "%" : form.substring(start, start + 1));
                }
                next = form.charAt(at);
            } while (Character.isDigit(next) || "-#+ ,(.$<".indexOf(next) >= 0);
            String flags = form.substring(start, at);
            if (next == 'n' || next == '%') {
                made.append(next == 'n' ? "\n" : padded("%", flags));
                continue;
            }
            int place = flags.indexOf('$');
            int number = flags.indexOf('<') >= 0 ? last : place >= 0 ? Integer.parseInt(flags.substring(0, place)) - 1 : value++;
            if ("sSbBcCdxXohH".indexOf(next) < 0) {
                if (isLater(next)) {
                    throw new NoClassDefFoundError("java.util.Formatter");
                }
                throw new java.util.UnknownFormatConversionException(String.valueOf(next));
            }
            if (number < 0 || values != null && number >= values.length) {
                throw new java.util.MissingFormatArgumentException("%" + flags + next);
            }
            last = number;
            made.append(shown(next, values == null ? null : values[number], flags.substring(place + 1)));
        }
        return made.toString();
    }

    /** Whether a conversion is one of Formatter's that isn't done here. */
    private static boolean isLater(char kind) {
        return "eEfgGaAtT".indexOf(kind) >= 0;
    }

    private static String shown(char kind, Object value, String flags) {
        char of = kind >= 'a' ? kind : (char) (kind + 32);
        String text = of == 'd' || of == 'x' || of == 'o' ? number(of, value, flags) : cut(text(of, value), flags);
        String done = padded(text, flags);
        return kind == of ? done : done.toUpperCase();
    }

    private static String text(char kind, Object value) {
        switch (kind) {
            case 'b':
                return value instanceof Boolean ? value.toString() : value == null ? "false" : "true";
            case 'c':
                if (value == null || value instanceof Character) {
                    return String.valueOf(value);
                }
                if (value instanceof Integer || value instanceof Short || value instanceof Byte) {
                    return String.valueOf(Character.toChars(((java.lang.Number) value).intValue()));
                }
                throw new java.util.IllegalFormatConversionException(kind, value.getClass());
            case 'h':
                return value == null ? "null" : Integer.toHexString(value.hashCode());
            default:
                return String.valueOf(value);
        }
    }

    /** A text's beginning, where it is stated how long it may be. */
    private static String cut(String text, String flags) {
        int dot = flags.indexOf('.');
        int most = dot < 0 ? text.length() : Integer.parseInt(flags.substring(dot + 1));
        return most < text.length() ? text.substring(0, most) : text;
    }

    private static String number(char kind, Object value, String flags) {
        if (flags.indexOf('.') >= 0) {
            throw new java.util.IllegalFormatPrecisionException(Integer.parseInt(flags.substring(flags.indexOf('.') + 1)));
        }
        if (value == null) {
            return "null";
        }
        if (!(value instanceof Integer || value instanceof Long || value instanceof Short || value instanceof Byte)) {
            throw new java.util.IllegalFormatConversionException(kind, value.getClass());
        }
        long of = ((java.lang.Number) value).longValue();
        if (kind != 'd') {
            of &= value instanceof Integer ? 0xffffffffL : value instanceof Short ? 0xffffL : value instanceof Byte ? 0xffL : -1L;
            String digits = kind == 'x' ? Long.toHexString(of) : Long.toOctalString(of);
            return flags.indexOf('#') < 0 ? digits : (kind == 'x' ? "0x" : "0").concat(digits);
        }
        String digits = Long.toString(of);
        String sign = of < 0 ? "-" : flags.indexOf('+') >= 0 ? "+" : flags.indexOf(' ') >= 0 ? " " : "";
        digits = of < 0 ? digits.substring(1) : digits;
        if (flags.indexOf(',') >= 0) {
            for (int at = digits.length() - 3; at > 0; at -= 3) {
                digits = digits.substring(0, at).concat(",").concat(digits.substring(at));
            }
        }
        return of < 0 && flags.indexOf('(') >= 0 ? "(".concat(digits).concat(")") : sign.concat(digits);
    }

    private static String padded(String text, String flags) {
        int width = 0;
        boolean isLeft = false;
        boolean isZero = false;
        for (int at = 0; at < flags.length() && flags.charAt(at) != '.'; at++) {
            char next = flags.charAt(at);
            isLeft |= next == '-';
            isZero |= next == '0' && width == 0;
            width = Character.isDigit(next) ? width * 10 + next - '0' : width;
        }
        if (isLeft && width == 0) {
            throw new java.util.MissingFormatWidthException("%".concat(flags));
        }
        StringBuilder made = new StringBuilder();
        int sign = isZero && !text.isEmpty() && "-+ (".indexOf(text.charAt(0)) >= 0 ? 1 : isZero && text.startsWith("0x") ? 2 : 0;
        made.append(isLeft ? text : text.substring(0, sign));
        for (int at = text.length(); at < width; at++) {
            made.append(isZero ? '0' : ' ');
        }
        return made.append(isLeft ? "" : text.substring(sign)).toString();
    }
}
