package more.java.lang;

import java.lang.Class;

/** Members of java.lang.Void. */
public final class Void {
    public static final Class<?> TYPE = more.Known.named("void");

    private Void() {
    }
}
