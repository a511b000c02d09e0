package java.util.regex;

public class PatternSyntaxException extends IllegalArgumentException {
    private final String what;
    private final String pattern;
    private final int index;

    public PatternSyntaxException(String what, String pattern, int index) {
        this.what = what;
        this.pattern = pattern;
        this.index = index;
    }

    public int getIndex() {
        return index;
    }

    public String getDescription() {
        return what;
    }

    public String getPattern() {
        return pattern;
    }

    @Override
    public String getMessage() {
        StringBuilder made = new StringBuilder(what);
        if (index >= 0) {
            made.append(" near index ").append(index);
        }
        made.append("\n").append(pattern);
        if (index >= 0 && pattern != null && index < pattern.length()) {
            made.append("\n");
            for (int at = 0; at < index; at++) {
                made.append(pattern.charAt(at) == '\t' ? '\t' : ' ');
            }
            made.append("^");
        }
        return made.toString();
    }
}
