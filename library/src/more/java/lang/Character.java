package more.java.lang;

import java.lang.Class;
import java.lang.CharSequence;

/** Members of java.lang.Character, for ASCII, Latin 1, and the Greek and Cyrillic letters that Texts knows. */
public final class Character {
    public static final Class<?> TYPE = more.Known.named("char");

    private Character() {
    }

    public static java.lang.Character make(java.lang.Character a, java.lang.Character b, char of) {
        return java.lang.Character.valueOf(of);
    }

    public static java.lang.String toString(char of) {
        return java.lang.String.valueOf(of);
    }

    public static int hashCode(char of) {
        return of;
    }

    public static int compare(char one, char other) {
        return one - other;
    }

    public static int compareTo(java.lang.Character one, java.lang.Character other) {
        return one.charValue() - other.charValue();
    }

    public static boolean isLetter(char of) {
        return isUpperCase(of) || isLowerCase(of) || of >= '\u0400' && of <= '\u0481'
            || of >= '\u05d0' && of <= '\u05ea' || of >= '\u0620' && of <= '\u064a' || of >= '\u3041' && of <= '\u30ff'
            || of >= '\u4e00' && of <= '\u9fa5' || of >= '\uac00' && of <= '\ud7a3';
    }

    public static boolean isLetter(int of) {
        return of < 0x10000 && isLetter((char) of);
    }

    public static boolean isDigit(int of) {
        return of < 0x10000 && java.lang.Character.isDigit((char) of);
    }

    public static boolean isAlphabetic(int of) {
        return isLetter(of);
    }

    public static boolean isLetterOrDigit(char of) {
        return isLetter(of) || java.lang.Character.isDigit(of);
    }

    public static boolean isLetterOrDigit(int of) {
        return of < 0x10000 && isLetterOrDigit((char) of);
    }

    public static boolean isUpperCase(char of) {
        return Texts.lower(of) != of;
    }

    public static boolean isUpperCase(int of) {
        return of < 0x10000 && isUpperCase((char) of);
    }

    public static boolean isLowerCase(char of) {
        return Texts.upper(of) != of || of == '\u00df' || of == '\u00aa' || of == '\u00b5' || of == '\u00ba'
            || of == '\u03c2';
    }

    public static boolean isLowerCase(int of) {
        return of < 0x10000 && isLowerCase((char) of);
    }

    public static boolean isTitleCase(char of) {
        return of == '\u01c5' || of == '\u01c8' || of == '\u01cb' || of == '\u01f2';
    }

    public static boolean isTitleCase(int of) {
        return of < 0x10000 && isTitleCase((char) of);
    }

    public static char toUpperCase(char of) {
        return Texts.upper(of);
    }

    public static int toUpperCase(int of) {
        return of < 0x10000 ? Texts.upper((char) of) : of;
    }

    public static char toLowerCase(char of) {
        return Texts.lower(of);
    }

    public static int toLowerCase(int of) {
        return of < 0x10000 ? Texts.lower((char) of) : of;
    }

    public static char toTitleCase(char of) {
        return Texts.upper(of);
    }

    public static int toTitleCase(int of) {
        return of < 0x10000 ? Texts.upper((char) of) : of;
    }

    public static boolean isWhitespace(char of) {
        return of == ' ' || of >= '\t' && of <= '\r' || of >= '\u001c' && of <= '\u001f' || of == '\u1680'
            || of >= '\u2000' && of <= '\u200a' && of != '\u2007' || of == '\u2028' || of == '\u2029'
            || of == '\u205f' || of == '\u3000';
    }

    public static boolean isWhitespace(int of) {
        return of < 0x10000 && isWhitespace((char) of);
    }

    public static boolean isSpaceChar(char of) {
        return of == ' ' || of == '\u00a0' || of == '\u1680' || of >= '\u2000' && of <= '\u200a' || of == '\u2028'
            || of == '\u2029' || of == '\u202f' || of == '\u205f' || of == '\u3000';
    }

    public static boolean isSpaceChar(int of) {
        return of < 0x10000 && isSpaceChar((char) of);
    }

    public static boolean isISOControl(int of) {
        return of < 0x10000 && isISOControl((char) of);
    }

    /** Whether it may be in a name of Java's and is not to be seen. */
    public static boolean isIdentifierIgnorable(char of) {
        return of <= '\b' || of >= '\u000e' && of <= '\u001b' || of >= '\u007f' && of <= '\u009f' || of == '\u00ad';
    }

    public static boolean isJavaIdentifierStart(char of) {
        return isLetter(of) || of == '_' || of == '$' || of >= '\u00a2' && of <= '\u00a5' || of == '\u20ac';
    }

    public static boolean isJavaIdentifierStart(int of) {
        return of < 0x10000 && isJavaIdentifierStart((char) of);
    }

    public static boolean isJavaIdentifierPart(char of) {
        return isJavaIdentifierStart(of) || java.lang.Character.isDigit(of) || isIdentifierIgnorable(of);
    }

    public static boolean isJavaIdentifierPart(int of) {
        return of < 0x10000 && isJavaIdentifierPart((char) of);
    }

    public static boolean isISOControl(char of) {
        return of < ' ' || of >= '\u007f' && of <= '\u009f';
    }

    public static int digit(char of, int radix) {
        int found = of >= '0' && of <= '9' ? of - '0' : of >= 'a' && of <= 'z' ? of - 'a' + 10
            : of >= 'A' && of <= 'Z' ? of - 'A' + 10 : -1;
        return radix < 2 || radix > 36 || found >= radix ? -1 : found;
    }

    public static int digit(int of, int radix) {
        return of < 0x10000 ? digit((char) of, radix) : -1;
    }

    public static char forDigit(int digit, int radix) {
        if (digit < 0 || digit >= radix || radix < 2 || radix > 36) {
            return 0;
        }
        return (char) (digit < 10 ? '0' + digit : 'a' + digit - 10);
    }

    public static int getNumericValue(char of) {
        return of == '\u00b2' || of == '\u00b3' ? of - '\u00b0' : of == '\u00b9' ? 1 : of >= '\u00bc' && of <= '\u00be' ? -2 : digit(of, 36);
    }

    public static int getNumericValue(int of) {
        return of < 0x10000 ? getNumericValue((char) of) : -1;
    }

    public static boolean isHighSurrogate(char of) {
        return of >= '\ud800' && of <= '\udbff';
    }

    public static boolean isLowSurrogate(char of) {
        return of >= '\udc00' && of <= '\udfff';
    }

    public static boolean isSurrogate(char of) {
        return of >= '\ud800' && of <= '\udfff';
    }

    public static boolean isSurrogatePair(char high, char low) {
        return isHighSurrogate(high) && isLowSurrogate(low);
    }

    public static boolean isSupplementaryCodePoint(int of) {
        return of >= 0x10000 && of <= 0x10ffff;
    }

    public static boolean isBmpCodePoint(int of) {
        return of >>> 16 == 0;
    }

    public static boolean isValidCodePoint(int of) {
        return of >= 0 && of <= 0x10ffff;
    }

    public static int toCodePoint(char high, char low) {
        return (high - 0xd800 << 10) + (low - 0xdc00) + 0x10000;
    }

    public static int charCount(int of) {
        return of >= 0x10000 ? 2 : 1;
    }

    public static char[] toChars(int of) {
        if (of >>> 16 == 0) {
            return new char[] {(char) of};
        }
        if (of < 0 || of > 0x10ffff) {
            throw new IllegalArgumentException();
        }
        return new char[] {(char) (0xd7c0 + (of >> 10)), (char) (0xdc00 | of & 0x3ff)};
    }

    public static int toChars(int of, char[] into, int at) {
        char[] found = toChars(of);
        for (int next = 0; next < found.length; next++) {
            into[at + next] = found[next];
        }
        return found.length;
    }

    public static char highSurrogate(int of) {
        return (char) (0xd7c0 + (of >>> 10));
    }

    public static char lowSurrogate(int of) {
        return (char) (0xdc00 | of & 0x3ff);
    }

    public static char reverseBytes(char of) {
        return (char) ((of & 0xff) << 8 | of >> 8);
    }

    public static int codePointAt(CharSequence of, int at) {
        char high = of.charAt(at);
        if (isHighSurrogate(high) && at + 1 < of.length() && isLowSurrogate(of.charAt(at + 1))) {
            return toCodePoint(high, of.charAt(at + 1));
        }
        return high;
    }

    public static int codePointAt(char[] of, int at) {
        return isHighSurrogate(of[at]) && at + 1 < of.length && isLowSurrogate(of[at + 1]) ? toCodePoint(of[at], of[at + 1]) : of[at];
    }

    public static int codePointAt(char[] of, int at, int most) {
        if (at >= most || most < 0 || most > of.length) {
            throw new IndexOutOfBoundsException();
        }
        int found = codePointAt(of, at);
        return at + 1 < most ? found : of[at];
    }

    public static int codePointBefore(CharSequence of, int at) {
        char low = of.charAt(at - 1);
        return isLowSurrogate(low) && at > 1 && isHighSurrogate(of.charAt(at - 2)) ? toCodePoint(of.charAt(at - 2), low) : low;
    }

    public static int codePointBefore(char[] of, int at) {
        char low = of[at - 1];
        return isLowSurrogate(low) && at > 1 && isHighSurrogate(of[at - 2]) ? toCodePoint(of[at - 2], low) : low;
    }

    public static int codePointCount(CharSequence of, int from, int to) {
        return of.toString().codePointCount(from, to);
    }

    public static int offsetByCodePoints(CharSequence of, int at, int many) {
        return of.toString().offsetByCodePoints(at, many);
    }
}
