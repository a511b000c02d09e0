package java.util.regex;

import java.util.ArrayList;
import java.util.HashMap;
import java.util.List;
import java.util.Map;

/** Reads a pattern, and makes nodes of it. */
final class Parser {
    private final String text;
    private final Map<String, Integer> names = new HashMap<>();
    private int flags;
    private int at;
    private int groups;
    private int rounds;

    /** A part with its first and its last node; the last has nothing behind it yet. */
    private static final class Part {
        final Node first;
        final Node last;

        Part(Node first, Node last) {
            this.first = first;
            this.last = last;
        }
    }

    Parser(String text, int flags) {
        this.text = text;
        this.flags = (flags & Pattern.UNICODE_CHARACTER_CLASS) != 0 ? flags | Pattern.UNICODE_CASE : flags;
        if ((flags & Pattern.CANON_EQ) != 0) {
            throw new NoClassDefFoundError("java.util.regex.Pattern: CANON_EQ");
        }
    }

    int flags() {
        return flags;
    }

    int groups() {
        return groups;
    }

    int rounds() {
        return rounds;
    }

    Map<String, Integer> names() {
        return names;
    }

    private boolean has(int flag) {
        return (flags & flag) != 0;
    }

    private PatternSyntaxException wrong(String what) {
        return new PatternSyntaxException(what, text, Math.min(at, text.length()) - 1);
    }

    Node parsed() {
        if (has(Pattern.LITERAL)) {
            Part made = new Part(new Node.Pass(), null);
            Node last = made.first;
            for (int place = 0; place < text.length(); place++) {
                last.next = new Node.One(cased(Chars.one(text.charAt(place))));
                last = last.next;
            }
            last.next = new Node.End(true);
            return made.first;
        }
        int given = flags;
        Part made = choice();
        if (at < text.length()) {
            at++;
            throw wrong("Unmatched closing ')'");
        }
        flags = given | flags;
        made.last.next = new Node.End(true);
        return made.first;
    }

    private Part choice() {
        List<Part> parts = new ArrayList<>();
        parts.add(sequence());
        while (at < text.length() && text.charAt(at) == '|') {
            at++;
            parts.add(sequence());
        }
        if (parts.size() == 1) {
            return parts.get(0);
        }
        Node meet = new Node.Pass();
        Node[] firsts = new Node[parts.size()];
        for (int part = 0; part < firsts.length; part++) {
            firsts[part] = parts.get(part).first;
            parts.get(part).last.next = meet;
        }
        return new Part(new Node.Choice(firsts), meet);
    }

    private Part sequence() {
        Node first = null;
        Node last = null;
        while (true) {
            passComments();
            if (at == text.length() || text.charAt(at) == '|' || text.charAt(at) == ')') {
                break;
            }
            Part part = plainText();
            if (part == null) {
                part = quantified(atom());
            }
            if (first == null) {
                first = part.first;
            } else {
                last.next = part.first;
            }
            last = part.last;
        }
        if (first == null) {
            first = new Node.Pass();
            last = first;
        }
        return new Part(first, last);
    }

    private void passComments() {
        while (has(Pattern.COMMENTS) && at < text.length()) {
            char next = text.charAt(at);
            if (next == '#') {
                while (at < text.length() && !isEndOfLine(text.charAt(at))) {
                    at++;
                }
            } else if (Chars.SPACE.has(next)) {
                at++;
            } else {
                return;
            }
        }
    }

    private boolean isEndOfLine(char of) {
        return of == '\n' || !has(Pattern.UNIX_LINES) && Chars.ENDS.has(of);
    }

    /** Two or more characters that stand for themselves, of which the last isn't to be repeated; or null. */
    private Part plainText() {
        if (has(Pattern.CASE_INSENSITIVE) || has(Pattern.COMMENTS)) {
            return null;
        }
        int end = at;
        while (end < text.length() && "\\[](){}.*+?^$|".indexOf(text.charAt(end)) < 0) {
            end++;
        }
        if (end < text.length() && "*+?{".indexOf(text.charAt(end)) >= 0) {
            end--;
        }
        if (end - at < 2) {
            return null;
        }
        Node made = new Node.Text(text.substring(at, end));
        at = end;
        return new Part(made, made);
    }

    private static Part alone(Node node) {
        return new Part(node, node);
    }

    private Chars cased(Chars of) {
        return has(Pattern.CASE_INSENSITIVE) ? new Chars.AnyCase(of, has(Pattern.UNICODE_CASE)) : of;
    }

    private Part atom() {
        char next = text.charAt(at++);
        switch (next) {
            case '(':
                return group();
            case '[':
                return alone(new Node.One(set()));
            case '.':
                return alone(new Node.One(has(Pattern.DOTALL) ? Chars.ALL
                    : new Chars.Not(has(Pattern.UNIX_LINES) ? Chars.one('\n') : Chars.ENDS)));
            case '^':
                return alone(new Node.Place(has(Pattern.MULTILINE) ? '[' : '^'));
            case '$':
                return alone(new Node.Place(has(Pattern.MULTILINE) ? ']' : '$'));
            case '\\':
                return escaped();
            case '*':
            case '+':
            case '?':
                throw wrong("Dangling meta character '" + next + "'");
            case '{':
                // What is repeated may be nothing.
                at--;
                return alone(new Node.Pass());
            default:
                return alone(new Node.One(cased(Chars.one(next))));
        }
    }

    private char taken() {
        if (at == text.length()) {
            at++;
            throw wrong("Unexpected internal error");
        }
        return text.charAt(at++);
    }

    private Part escaped() {
        char next = taken();
        switch (next) {
            case 'b':
            case 'B':
            case 'A':
            case 'G':
            case 'Z':
            case 'z':
                return alone(new Node.Place(next));
            case 'Q':
                return quoted();
            case 'E':
                return alone(new Node.Pass());
            case 'R':
                return endOfLine();
            case 'k':
                return alone(new Node.Again(groupNamed(), has(Pattern.CASE_INSENSITIVE)));
            default:
                break;
        }
        if (next >= '1' && next <= '9') {
            int group = next - '0';
            while (at < text.length() && text.charAt(at) >= '0' && text.charAt(at) <= '9'
                    && group * 10 + text.charAt(at) - '0' <= groups) {
                group = group * 10 + text.charAt(at++) - '0';
            }
            if (group > groups) {
                return alone(new Node.One(new Chars.Not(Chars.ALL)));
            }
            return alone(new Node.Again(group, has(Pattern.CASE_INSENSITIVE)));
        }
        return alone(new Node.One(escapedSet(next)));
    }

    private int groupNamed() {
        if (taken() != '<') {
            throw wrong("\\k is not followed by '<' for named capturing group");
        }
        String name = name();
        if (!names.containsKey(name)) {
            throw wrong("named capturing group <" + name + "> does not exist");
        }
        return names.get(name);
    }

    private Part quoted() {
        int end = text.indexOf("\\E", at);
        String plain = end < 0 ? text.substring(at) : text.substring(at, end);
        at = end < 0 ? text.length() : end + 2;
        Node first = new Node.Pass();
        Node last = first;
        for (int place = 0; place < plain.length(); place++) {
            Node next = new Node.One(cased(Chars.one(plain.charAt(place))));
            last.next = next;
            if (place + 1 == plain.length()) {
                // Only the last character is repeated by what stands behind.
                Part part = quantified(alone(next));
                last.next = part.first;
                return new Part(first, part.last);
            }
            last = next;
        }
        return new Part(first, last);
    }

    private static Part endOfLine() {
        Node both = new Node.Text("\r\n");
        Node one = new Node.One(Chars.DOWN);
        Node meet = new Node.Pass();
        both.next = meet;
        one.next = meet;
        return new Part(new Node.Choice(new Node[] {both, one}), meet);
    }

    /** What a backslash and a letter, or another sign, stand for. */
    private Chars escapedSet(char next) {
        Chars named = Chars.named(next);
        if (named != null) {
            return named;
        }
        if (next == 'p' || next == 'P') {
            return property(next == 'P');
        }
        return cased(Chars.one(escapedChar(next)));
    }

    private char escapedChar(char next) {
        switch (next) {
            case 't':
                return '\t';
            case 'n':
                return '\n';
            case 'r':
                return '\r';
            case 'f':
                return '\f';
            case 'a':
                return '\u0007';
            case 'e':
                return '\u001b';
            case '0':
                return octal();
            case 'x':
                return text.startsWith("{", at) ? hexInBraces() : hex(2);
            case 'u':
                return hex(4);
            case 'c':
                return (char) (taken() ^ 64);
            default:
                if (next >= 'a' && next <= 'z' || next >= 'A' && next <= 'Z' || next >= '0' && next <= '9') {
                    throw wrong("Illegal/unsupported escape sequence");
                }
                return next;
        }
    }

    private char octal() {
        int value = 0;
        int most = at < text.length() && text.charAt(at) <= '3' ? 3 : 2;
        int count = 0;
        while (count < most && at < text.length() && text.charAt(at) >= '0' && text.charAt(at) <= '7') {
            value = value * 8 + text.charAt(at++) - '0';
            count++;
        }
        if (count == 0) {
            throw wrong("Illegal octal escape sequence");
        }
        return (char) value;
    }

    private char hex(int count) {
        int value = 0;
        for (int digit = 0; digit < count; digit++) {
            int found = at < text.length() ? Character.digit(text.charAt(at), 16) : -1;
            if (found < 0) {
                throw wrong(count == 2 ? "Illegal hexadecimal escape sequence" : "Illegal Unicode escape sequence");
            }
            value = value * 16 + found;
            at++;
        }
        return (char) value;
    }

    private char hexInBraces() {
        int end = text.indexOf("}", at);
        if (end < at + 2 || end > at + 5) {
            throw wrong("Unclosed or too wide hexadecimal escape sequence");
        }
        at++;
        char found = hex(end - at);
        at = end + 1;
        return found;
    }

    private Chars property(boolean isNot) {
        String name;
        if (text.startsWith("{", at)) {
            int end = text.indexOf("}", at);
            if (end < 0) {
                throw wrong("Unclosed character family");
            }
            name = text.substring(at + 1, end);
            at = end + 1;
            if (name.isEmpty()) {
                throw wrong("Empty character family");
            }
        } else {
            name = String.valueOf(taken());
        }
        Chars found = Chars.property(name);
        if (found == null) {
            throw new NoClassDefFoundError("java.util.regex.Pattern: \\p{" + name + "}");
        }
        if (has(Pattern.CASE_INSENSITIVE) && (name.equals("Lower") || name.equals("Upper"))) {
            found = cased(found);
        }
        return isNot ? new Chars.Not(found) : found;
    }

    // Sets in brackets.

    /** A set, behind its opening bracket. */
    private Chars set() {
        boolean isNot = at < text.length() && text.charAt(at) == '^';
        at += isNot ? 1 : 0;
        Chars all = null;
        Chars before = null;
        boolean isFirst = true;
        boolean meets = false;
        while (true) {
            if (at == text.length()) {
                throw wrong("Unclosed character class");
            }
            char next = text.charAt(at);
            if (next == ']' && (!isFirst || before != null)) {
                at++;
                break;
            }
            if (text.startsWith("&&", at)) {
                while (text.startsWith("&&", at)) {
                    at += 2;
                }
                before = both(before, all, meets);
                all = null;
                meets = true;
                isFirst = false;
                continue;
            }
            isFirst = false;
            Chars more = item();
            all = more == null ? all : all == null ? more : new Chars.Either(all, more);
        }
        Chars found = both(before, all, meets);
        if (found == null) {
            throw wrong("Bad class syntax");
        }
        return isNot ? new Chars.Not(found) : found;
    }

    private static Chars both(Chars before, Chars all, boolean meets) {
        return before == null ? all : all == null ? before : meets ? new Chars.Both(before, all) : new Chars.Either(before, all);
    }

    /** One item of a set: a set, a character or a range; null for what is empty. */
    private Chars item() {
        char next = text.charAt(at++);
        if (next == '[') {
            return set();
        }
        if (next == '\\') {
            char sign = taken();
            if (sign == 'Q') {
                return quotedSet();
            }
            if (sign == 'E') {
                return null;
            }
            if (Chars.named(sign) != null || sign == 'p' || sign == 'P') {
                return escapedSet(sign);
            }
            next = escapedChar(sign);
        }
        if (at + 1 < text.length() && text.charAt(at) == '-' && text.charAt(at + 1) != ']' && text.charAt(at + 1) != '['
                && !text.startsWith("-&&", at)) {
            at++;
            char last = taken();
            if (last == '\\') {
                last = escapedChar(taken());
            }
            if (last < next) {
                throw wrong("Illegal character range");
            }
            return cased(new Chars.Range(next, last));
        }
        return cased(Chars.one(next));
    }

    private Chars quotedSet() {
        int end = text.indexOf("\\E", at);
        String plain = end < 0 ? text.substring(at) : text.substring(at, end);
        at = end < 0 ? text.length() : end + 2;
        Chars all = null;
        for (int place = 0; place < plain.length(); place++) {
            Chars one = cased(Chars.one(plain.charAt(place)));
            all = all == null ? one : new Chars.Either(all, one);
        }
        return all;
    }

    // Groups.

    private String name() {
        int from = at;
        while (at < text.length() && (text.charAt(at) >= 'a' && text.charAt(at) <= 'z' || text.charAt(at) >= 'A' && text.charAt(at) <= 'Z'
                || at > from && text.charAt(at) >= '0' && text.charAt(at) <= '9')) {
            at++;
        }
        String found = text.substring(from, at);
        if (found.isEmpty() || taken() != '>') {
            throw wrong("named capturing group is missing trailing '>'");
        }
        return found;
    }

    private Part group() {
        int given = flags;
        if (!text.startsWith("?", at)) {
            Part made = captured();
            flags = given;
            return made;
        }
        at++;
        char kind = taken();
        Part made;
        switch (kind) {
            case ':':
                made = closed(choice());
                break;
            case '>':
                made = alone(new Node.Alone(ended(), Node.Alone.ATOMIC, true));
                break;
            case '=':
            case '!':
                made = alone(new Node.Alone(ended(), Node.Alone.AHEAD, kind == '='));
                break;
            case '<':
                char next = taken();
                if (next == '=' || next == '!') {
                    made = alone(new Node.Alone(ended(), Node.Alone.BEHIND, next == '='));
                    break;
                }
                at--;
                String name = name();
                if (names.containsKey(name)) {
                    throw wrong("Named capturing group <" + name + "> is already defined");
                }
                names.put(name, groups + 1);
                made = captured();
                break;
            default:
                at--;
                if (!takeFlags()) {
                    return alone(new Node.Pass());
                }
                made = closed(choice());
        }
        flags = given;
        return made;
    }

    private Part captured() {
        int number = ++groups;
        Node open = new Node.Open(number);
        Part body = closed(choice());
        Node close = new Node.Close(number);
        open.next = body.first;
        body.last.next = close;
        return new Part(open, close);
    }

    private Part closed(Part body) {
        if (at == text.length()) {
            at++;
            throw wrong("Unclosed group");
        }
        at++;
        return body;
    }

    /** The nodes of a group that is matched by itself. */
    private Node ended() {
        Part body = closed(choice());
        body.last.next = new Node.End(false);
        return body.first;
    }

    /** Takes flags up to `)`, for all that follows, or `:`; gives whether a group follows. */
    private boolean takeFlags() {
        boolean isOn = true;
        while (true) {
            char next = taken();
            int flag = 0;
            switch (next) {
                case ')':
                    return false;
                case ':':
                    return true;
                case '-':
                    isOn = false;
                    continue;
                case 'i':
                    flag = Pattern.CASE_INSENSITIVE;
                    break;
                case 'm':
                    flag = Pattern.MULTILINE;
                    break;
                case 's':
                    flag = Pattern.DOTALL;
                    break;
                case 'd':
                    flag = Pattern.UNIX_LINES;
                    break;
                case 'u':
                    flag = Pattern.UNICODE_CASE;
                    break;
                case 'x':
                    flag = Pattern.COMMENTS;
                    break;
                case 'U':
                    flag = Pattern.UNICODE_CHARACTER_CLASS | Pattern.UNICODE_CASE;
                    break;
                default:
                    throw wrong("Unknown inline modifier");
            }
            flags = isOn ? flags | flag : flags & ~flag;
        }
    }

    // How often.

    private Part quantified(Part part) {
        passComments();
        if (at == text.length()) {
            return part;
        }
        int least;
        int most;
        switch (text.charAt(at)) {
            case '?':
                least = 0;
                most = 1;
                at++;
                break;
            case '*':
                least = 0;
                most = Integer.MAX_VALUE;
                at++;
                break;
            case '+':
                least = 1;
                most = Integer.MAX_VALUE;
                at++;
                break;
            case '{':
                at++;
                least = number();
                most = least;
                if (text.startsWith(",", at)) {
                    at++;
                    most = text.startsWith("}", at) ? Integer.MAX_VALUE : number();
                }
                if (!text.startsWith("}", at)) {
                    throw wrong("Unclosed counted closure");
                }
                at++;
                if (most < least) {
                    throw wrong("Illegal repetition range");
                }
                break;
            default:
                return part;
        }
        int how = Node.GREEDY;
        if (text.startsWith("?", at) || text.startsWith("+", at)) {
            how = text.charAt(at) == '?' ? Node.LAZY : Node.POSSESSIVE;
            at++;
        }
        return quantified(repeated(part, least, most, how), 0);
    }

    /** A quantifier behind a quantifier is refused. */
    private Part quantified(Part part, int none) {
        if (at < text.length() && "*+?".indexOf(text.charAt(at)) >= 0) {
            at++;
            throw wrong("Dangling meta character '" + text.charAt(at - 1) + "'");
        }
        return part;
    }

    private int number() {
        int from = at;
        int value = 0;
        while (at < text.length() && text.charAt(at) >= '0' && text.charAt(at) <= '9') {
            value = value * 10 + text.charAt(at++) - '0';
            if (value < 0) {
                throw wrong("Illegal repetition range");
            }
        }
        if (at == from) {
            throw wrong("Illegal repetition");
        }
        return value;
    }

    private Part repeated(Part part, int least, int most, int how) {
        if (part.first == part.last && part.first instanceof Node.One) {
            return alone(new Node.Many(((Node.One) part.first).of, least, most, how));
        }
        Node.Round round = new Node.Round(rounds++, least, most, how == Node.LAZY);
        Node begin = new Node.Begin(round);
        round.body = part.first;
        part.last.next = round;
        if (how != Node.POSSESSIVE) {
            return new Part(begin, round);
        }
        round.next = new Node.End(false);
        return alone(new Node.Alone(begin, Node.Alone.ATOMIC, true));
    }
}
