package more.java.lang;

/** Members of java.lang.CharSequence, which the profile's StringBuilder isn't. */
public interface CharSequence extends java.lang.CharSequence {
    @Override
    java.lang.CharSequence subSequence(int from, int to);

    static boolean isInstance(Object of) {
        return of instanceof java.lang.CharSequence || of instanceof java.lang.StringBuilder;
    }

    static Object cast(Object of) {
        return of instanceof java.lang.StringBuilder ? of : (java.lang.CharSequence) of;
    }

    static java.lang.CharSequence subSequence(java.lang.CharSequence of, int from, int to) {
        return of instanceof CharSequence ? ((CharSequence) of).subSequence(from, to)
            : toString(of).substring(from, to);
    }

    static int length(java.lang.CharSequence of) {
        return of instanceof java.lang.StringBuilder ? StringBuilder.length((java.lang.StringBuilder) of) : of.length();
    }

    static char charAt(java.lang.CharSequence of, int at) {
        return of instanceof java.lang.StringBuilder ? StringBuilder.charAt((java.lang.StringBuilder) of, at) : of.charAt(at);
    }

    static java.lang.String toString(java.lang.CharSequence of) {
        return of instanceof java.lang.StringBuilder ? StringBuilder.toString((java.lang.StringBuilder) of) : of.toString();
    }
}
