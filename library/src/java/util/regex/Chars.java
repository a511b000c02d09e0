package java.util.regex;

/** A set of characters. */
abstract class Chars {
    abstract boolean has(char of);

    static Chars one(char only) {
        return new Range(only, only);
    }

    static final class Range extends Chars {
        private final char first;
        private final char last;

        Range(char first, char last) {
            this.first = first;
            this.last = last;
        }

        @Override
        boolean has(char of) {
            return of >= first && of <= last;
        }
    }

    /** The characters of a text, ranges by pairs of its first and its last. */
    static final class Ranges extends Chars {
        private final String pairs;

        Ranges(String pairs) {
            this.pairs = pairs;
        }

        @Override
        boolean has(char of) {
            for (int at = 0; at < pairs.length(); at += 2) {
                if (of >= pairs.charAt(at) && of <= pairs.charAt(at + 1)) {
                    return true;
                }
            }
            return false;
        }
    }

    static final class Not extends Chars {
        private final Chars of;

        Not(Chars of) {
            this.of = of;
        }

        @Override
        boolean has(char next) {
            return !of.has(next);
        }
    }

    static final class Either extends Chars {
        private final Chars one;
        private final Chars other;

        Either(Chars one, Chars other) {
            this.one = one;
            this.other = other;
        }

        @Override
        boolean has(char of) {
            return one.has(of) || other.has(of);
        }
    }

    static final class Both extends Chars {
        private final Chars one;
        private final Chars other;

        Both(Chars one, Chars other) {
            this.one = one;
            this.other = other;
        }

        @Override
        boolean has(char of) {
            return one.has(of) && other.has(of);
        }
    }

    /** A set in which the case of letters, of ASCII or of all, doesn't count. */
    static final class AnyCase extends Chars {
        private final Chars of;
        private final boolean all;

        AnyCase(Chars of, boolean all) {
            this.of = of;
            this.all = all;
        }

        @Override
        boolean has(char next) {
            return of.has(next) || (all || next < 128) && (hasOther(Character.toLowerCase(next)) || hasOther(Character.toUpperCase(next)));
        }

        private boolean hasOther(char next) {
            return (all || next < 128) && of.has(next);
        }
    }

    /** Letters and digits as Character tells them. */
    static final class Kind extends Chars {
        private final String name;

        Kind(String name) {
            this.name = name;
        }

        @Override
        boolean has(char of) {
            switch (name) {
                case "L":
                    return Character.isLetter(of);
                case "Lu":
                    return Character.isUpperCase(of);
                case "Ll":
                    return Character.isLowerCase(of);
                case "Nd":
                    return Character.isDigit(of);
                case "LD":
                    return Character.isLetterOrDigit(of);
                default:
                    return Character.isWhitespace(of);
            }
        }
    }

    static final Chars DIGITS = new Range('0', '9');
    static final Chars WORD = new Ranges("azAZ09__");
    static final Chars SPACE = new Ranges("\t\r  ");
    static final Chars ACROSS = new Ranges("\t\t  \u00a0\u00a0\u1680\u1680\u180e\u180e\u2000\u200a\u202f\u202f\u205f\u205f\u3000\u3000");
    static final Chars DOWN = new Ranges("\n\r\u0085\u0085\u2028\u2029");
    static final Chars ENDS = new Ranges("\n\n\r\r\u0085\u0085\u2028\u2029");
    static final Chars ALL = new Range('\0', '\uffff');

    /** The set that a letter behind a backslash names, or null. */
    static Chars named(char letter) {
        switch (letter) {
            case 'd':
                return DIGITS;
            case 'D':
                return new Not(DIGITS);
            case 'w':
                return WORD;
            case 'W':
                return new Not(WORD);
            case 's':
                return SPACE;
            case 'S':
                return new Not(SPACE);
            case 'h':
                return ACROSS;
            case 'H':
                return new Not(ACROSS);
            case 'v':
                return DOWN;
            case 'V':
                return new Not(DOWN);
            default:
                return null;
        }
    }

    /** The set of a property of POSIX or of Java, or null where Java has it and this library hasn't. */
    static Chars property(String name) {
        switch (name) {
            case "Lower":
                return new Range('a', 'z');
            case "Upper":
                return new Range('A', 'Z');
            case "ASCII":
                return new Range('\0', '\u007f');
            case "Alpha":
                return new Ranges("azAZ");
            case "Digit":
                return DIGITS;
            case "Alnum":
                return new Ranges("azAZ09");
            case "Punct":
                return new Ranges("!/:@[`{~");
            case "Graph":
                return new Range('!', '~');
            case "Print":
                return new Range(' ', '~');
            case "Blank":
                return new Ranges("\t\t  ");
            case "Cntrl":
                return new Ranges("\0\u001f\u007f\u007f");
            case "XDigit":
                return new Ranges("09afAF");
            case "Space":
                return SPACE;
            case "InCombiningDiacriticalMarks":
                return new Range('\u0300', '\u036f');
            default:
                return ofJava(name);
        }
    }

    private static Chars ofJava(String name) {
        switch (name) {
            case "L":
            case "IsL":
            case "IsAlphabetic":
            case "javaLetter":
                return new Kind("L");
            case "Lu":
            case "IsLu":
            case "IsUppercase":
            case "javaUpperCase":
                return new Kind("Lu");
            case "Ll":
            case "IsLl":
            case "IsLowercase":
            case "javaLowerCase":
                return new Kind("Ll");
            case "N":
            case "Nd":
            case "IsN":
            case "IsNd":
            case "IsDigit":
            case "javaDigit":
                return new Kind("Nd");
            case "javaLetterOrDigit":
                return new Kind("LD");
            case "javaWhitespace":
                return new Kind("W");
            default:
                return null;
        }
    }
}
