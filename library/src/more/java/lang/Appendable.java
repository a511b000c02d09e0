package more.java.lang;

import java.io.IOException;
import java.lang.CharSequence;

/** Members of java.lang.Appendable, which the profile's StringBuilder isn't. */
public final class Appendable {
    private Appendable() {
    }

    public static boolean isInstance(Object of) {
        return of instanceof java.lang.Appendable || of instanceof java.lang.StringBuilder;
    }

    public static Object cast(Object of) {
        return of instanceof java.lang.StringBuilder ? of : (java.lang.Appendable) of;
    }

    public static java.lang.Appendable append(java.lang.Appendable to, CharSequence of) throws IOException {
        if ((Object) to instanceof java.lang.StringBuilder) {
            ((java.lang.StringBuilder) (Object) to).append(of);
            return to;
        }
        return to.append(of);
    }

    public static java.lang.Appendable append(java.lang.Appendable to, CharSequence of, int from, int until) throws IOException {
        if ((Object) to instanceof java.lang.StringBuilder) {
            ((java.lang.StringBuilder) (Object) to).append(of, from, until);
            return to;
        }
        return to.append(of, from, until);
    }

    public static java.lang.Appendable append(java.lang.Appendable to, char of) throws IOException {
        if ((Object) to instanceof java.lang.StringBuilder) {
            ((java.lang.StringBuilder) (Object) to).append(of);
            return to;
        }
        return to.append(of);
    }
}
