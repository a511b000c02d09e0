package java.util.regex;

/** java.util.regex.Matcher. */
public final class Matcher implements MatchResult {
    private Pattern pattern;
    private boolean isAnchoring = true;
    private boolean isTransparent;
    private int appended;
    /** Where the last match began; -1 where none was found. It and the end stay as they are where the next one would begin behind the region. */
    private int start;
    private int end;
    // What the nodes of the pattern use.
    String text;
    int from;
    int to;
    int last;
    int lastEnd;
    boolean mustEnd;
    boolean hitsEnd;
    boolean needsEnd;
    int[] groups;
    int[] begun;
    int[] counts;
    int[] froms;

    Matcher(Pattern pattern, CharSequence text) {
        this.pattern = pattern;
        this.text = text.toString();
        makeRoom();
        reset();
    }

    private void makeRoom() {
        groups = new int[2 * (pattern.groups + 1)];
        begun = new int[pattern.groups + 1];
        counts = new int[pattern.rounds];
        froms = new int[pattern.rounds];
    }

    int first() {
        return isAnchoring ? from : 0;
    }

    int ending() {
        return isAnchoring ? to : text.length();
    }

    public Pattern pattern() {
        return pattern;
    }

    public MatchResult toMatchResult() {
        Matcher made = new Matcher(pattern, text);
        made.start = start;
        made.end = end;
        made.groups = groups.clone();
        return made;
    }

    public Matcher usePattern(Pattern other) {
        if (other == null) {
            throw new IllegalArgumentException("Pattern cannot be null");
        }
        pattern = other;
        makeRoom();
        forget();
        return this;
    }

    private void forget() {
        for (int at = 0; at < groups.length; at++) {
            groups[at] = -1;
        }
    }

    public Matcher reset() {
        from = 0;
        to = text.length();
        start = -1;
        end = 0;
        lastEnd = -1;
        appended = 0;
        forget();
        return this;
    }

    public Matcher reset(CharSequence other) {
        text = other.toString();
        return reset();
    }

    public Matcher region(int first, int end) {
        if (first < 0 || first > text.length()) {
            throw new IndexOutOfBoundsException("start");
        }
        if (end < 0 || end > text.length()) {
            throw new IndexOutOfBoundsException("end");
        }
        if (first > end) {
            throw new IndexOutOfBoundsException("start > end");
        }
        reset();
        from = first;
        to = end;
        return this;
    }

    public int regionStart() {
        return from;
    }

    public int regionEnd() {
        return to;
    }

    public boolean hasAnchoringBounds() {
        return isAnchoring;
    }

    public Matcher useAnchoringBounds(boolean to) {
        isAnchoring = to;
        return this;
    }

    public boolean hasTransparentBounds() {
        return isTransparent;
    }

    public Matcher useTransparentBounds(boolean to) {
        if (to) {
            throw new NoClassDefFoundError("java.util.regex.Matcher: transparent bounds");
        }
        return this;
    }

    public boolean hitEnd() {
        return hitsEnd;
    }

    public boolean requireEnd() {
        return needsEnd;
    }

    // Matching.

    private void begin(int at, boolean isWhole) {
        hitsEnd = false;
        needsEnd = false;
        mustEnd = isWhole;
        lastEnd = lastEnd < 0 ? at : lastEnd;
        forget();
    }

    private boolean ended(boolean isFound, int at) {
        start = isFound ? at : -1;
        if (isFound) {
            end = last;
            groups[0] = at;
            groups[1] = last;
        }
        lastEnd = end;
        return isFound;
    }

    private boolean isAt(int at, boolean isWhole) {
        begin(at, isWhole);
        return ended(pattern.root.match(this, at), at);
    }

    public boolean matches() {
        return isAt(from, true);
    }

    public boolean lookingAt() {
        return isAt(from, false);
    }

    public boolean find() {
        int at = end == start ? end + 1 : end;
        at = at < from ? from : at;
        if (at > to) {
            forget();
            return false;
        }
        return search(at);
    }

    public boolean find(int at) {
        if (at < 0 || at > text.length()) {
            throw new IndexOutOfBoundsException("Illegal start index");
        }
        reset();
        return search(at);
    }

    private boolean search(int at) {
        begin(at, false);
        int first = pattern.root instanceof Node.Text ? ((Node.Text) pattern.root).first() : -1;
        for (int next = at; next <= to; next++) {
            if (first >= 0) {
                while (next < to && text.charAt(next) != first) {
                    next++;
                }
            }
            if (pattern.root.match(this, next)) {
                return ended(true, next);
            }
        }
        hitsEnd = true;
        return ended(false, at);
    }

    // What was matched.

    private int placeOf(int group) {
        if (start < 0) {
            throw new IllegalStateException("No match available");
        }
        if (group < 0 || group > groupCount()) {
            throw new IndexOutOfBoundsException("No group " + group);
        }
        return 2 * group;
    }

    private int numberOf(String name) {
        if (name == null) {
            throw new NullPointerException("Group name");
        }
        if (start < 0) {
            throw new IllegalStateException("No match found");
        }
        Integer found = pattern.names.get(name);
        if (found == null) {
            throw new IllegalArgumentException("No group with name <" + name + ">");
        }
        return found;
    }

    @Override
    public int start() {
        placeOf(0);
        return start;
    }

    @Override
    public int start(int group) {
        return groups[placeOf(group)];
    }

    public int start(String name) {
        return groups[2 * numberOf(name)];
    }

    @Override
    public int end() {
        placeOf(0);
        return end;
    }

    @Override
    public int end(int group) {
        return groups[placeOf(group) + 1];
    }

    public int end(String name) {
        return groups[2 * numberOf(name) + 1];
    }

    @Override
    public String group() {
        return group(0);
    }

    @Override
    public String group(int group) {
        if (start < 0) {
            throw new IllegalStateException("No match found");
        }
        int place = placeOf(group);
        return groups[place] < 0 || groups[place + 1] < 0 ? null : text.substring(groups[place], groups[place + 1]);
    }

    public String group(String name) {
        return group(numberOf(name));
    }

    @Override
    public int groupCount() {
        return pattern.groups;
    }

    // Replacing.

    public static String quoteReplacement(String text) {
        StringBuilder made = new StringBuilder();
        for (int at = 0; at < text.length(); at++) {
            char next = text.charAt(at);
            if (next == '\\' || next == '$') {
                made.append('\\');
            }
            made.append(next);
        }
        return made.toString();
    }

    /** The text that stands for a match: `\x` for x, `$n` and `${name}` for groups. */
    private String replacement(String by) {
        StringBuilder made = new StringBuilder();
        int at = 0;
        while (at < by.length()) {
            char next = by.charAt(at++);
            if (next == '\\') {
                if (at == by.length()) {
                    throw new IllegalArgumentException("character to be escaped is missing");
                }
                made.append(by.charAt(at++));
            } else if (next != '$') {
                made.append(next);
            } else if (at == by.length()) {
                throw new IllegalArgumentException("Illegal group reference: group index is missing");
            } else if (by.charAt(at) == '{') {
                int close = at + 1;
                while (close < by.length() && isOfName(by.charAt(close))) {
                    close++;
                }
                String name = by.substring(at + 1, close);
                if (name.isEmpty() || close == by.length() || by.charAt(close) != '}' || name.charAt(0) <= '9') {
                    throw new IllegalArgumentException("named capturing group has no usable name");
                }
                if (!pattern.names.containsKey(name)) {
                    throw new IllegalArgumentException("No group with name {" + name + "}");
                }
                made.append(shown(pattern.names.get(name)));
                at = close + 1;
            } else {
                int group = by.charAt(at++) - '0';
                if (group < 0 || group > 9) {
                    throw new IllegalArgumentException("Illegal group reference");
                }
                while (at < by.length() && by.charAt(at) >= '0' && by.charAt(at) <= '9'
                        && group * 10 + by.charAt(at) - '0' <= groupCount()) {
                    group = group * 10 + by.charAt(at++) - '0';
                }
                made.append(shown(group));
            }
        }
        return made.toString();
    }

    private static boolean isOfName(char of) {
        return of >= '0' && of <= '9' || of >= 'a' && of <= 'z' || of >= 'A' && of <= 'Z';
    }

    private String shown(int group) {
        String found = group(group);
        return found == null ? "" : found;
    }

    public Matcher appendReplacement(StringBuffer to, String by) {
        if (start < 0) {
            throw new IllegalStateException("No match available");
        }
        String made = replacement(by);
        to.append(text, appended, start).append(made);
        appended = end;
        return this;
    }

    public StringBuffer appendTail(StringBuffer to) {
        return to.append(text, appended, text.length());
    }

    public String replaceAll(String by) {
        return replaced(by, false);
    }

    public String replaceFirst(String by) {
        if (by == null) {
            throw new NullPointerException("replacement");
        }
        return replaced(by, true);
    }

    private String replaced(String by, boolean isOnce) {
        reset();
        if (!find()) {
            return text;
        }
        StringBuffer made = new StringBuffer();
        do {
            appendReplacement(made, by);
        } while (!isOnce && find());
        return appendTail(made).toString();
    }

    @Override
    public String toString() {
        return "java.util.regex.Matcher[pattern=" + pattern + " region=" + from + "," + to + " lastmatch="
            + (start >= 0 && group() != null ? group() : "") + "]";
    }
}
