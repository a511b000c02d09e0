package java.util.regex;

import java.io.Serializable;
import java.util.ArrayList;
import java.util.List;
import java.util.Map;
import java.util.function.Predicate;

/** java.util.regex.Pattern by backtracking. Each char counts as a character; of properties there are those that Chars names. */
public final class Pattern implements Serializable {
    public static final int UNIX_LINES = 1;
    public static final int CASE_INSENSITIVE = 2;
    public static final int COMMENTS = 4;
    public static final int MULTILINE = 8;
    public static final int LITERAL = 16;
    public static final int DOTALL = 32;
    public static final int UNICODE_CASE = 64;
    public static final int CANON_EQ = 128;
    public static final int UNICODE_CHARACTER_CLASS = 256;

    private final String pattern;
    private final int flags;
    final Node root;
    final int groups;
    final int rounds;
    final Map<String, Integer> names;

    private Pattern(String pattern, int flags) {
        this.pattern = pattern;
        if ((flags & ~511) != 0) {
            throw new IllegalArgumentException("Unknown flag 0x" + Integer.toHexString(flags));
        }
        Parser parser = new Parser(pattern, flags);
        root = parser.parsed();
        this.flags = parser.flags();
        groups = parser.groups();
        rounds = parser.rounds();
        names = parser.names();
    }

    public static Pattern compile(String pattern) {
        return new Pattern(pattern, 0);
    }

    public static Pattern compile(String pattern, int flags) {
        return new Pattern(pattern, flags);
    }

    public static boolean matches(String pattern, CharSequence text) {
        return compile(pattern).matcher(text).matches();
    }

    public static String quote(String text) {
        if (text.indexOf("\\E") < 0) {
            return "\\Q" + text + "\\E";
        }
        StringBuilder made = new StringBuilder("\\Q");
        int from = 0;
        for (int at = text.indexOf("\\E"); at >= 0; at = text.indexOf("\\E", from)) {
            made.append(text.substring(from, at)).append("\\E\\\\E\\Q");
            from = at + 2;
        }
        return made.append(text.substring(from)).append("\\E").toString();
    }

    public Matcher matcher(CharSequence text) {
        return new Matcher(this, text);
    }

    public String pattern() {
        return pattern;
    }

    public int flags() {
        return flags;
    }

    @Override
    public String toString() {
        return pattern;
    }

    public Predicate<String> asPredicate() {
        return text -> matcher(text).find();
    }

    public String[] split(CharSequence text) {
        return split(text, 0);
    }

    public String[] split(CharSequence text, int limit) {
        List<String> parts = new ArrayList<>();
        Matcher by = matcher(text);
        String all = text.toString();
        int from = 0;
        while ((limit <= 0 || parts.size() < limit - 1) && by.find()) {
            // What matches nothing at the very beginning divides nothing.
            if (by.end() > 0) {
                parts.add(all.substring(from, by.start()));
                from = by.end();
            }
        }
        if (from == 0) {
            return new String[] {all};
        }
        parts.add(all.substring(from));
        int count = parts.size();
        while (limit == 0 && count > 0 && parts.get(count - 1).isEmpty()) {
            count--;
        }
        String[] made = new String[count];
        for (int at = 0; at < count; at++) {
            made[at] = parts.get(at);
        }
        return made;
    }
}
