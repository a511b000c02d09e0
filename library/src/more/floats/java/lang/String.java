package more.floats.java.lang;

import java.util.Locale;
import more.floats.Forms;

/** Members of java.lang.String that have floats. */
public final class String {
    private String() {
    }

    public static java.lang.String valueOf(double of) {
        return java.lang.Double.toString(of);
    }

    public static java.lang.String valueOf(float of) {
        return java.lang.Float.toString(of);
    }

    public static java.lang.String format(java.lang.String form, java.lang.Object[] values) {
        Forms made = new Forms(form, values);
        return java.lang.String.format(made.form, made.values);
    }

    public static java.lang.String format(Locale locale, java.lang.String form, java.lang.Object[] values) {
        return format(form, values);
    }
}
