package more.java.lang;

import java.lang.String;

/** java.lang.StringIndexOutOfBoundsException with its constructor for an index. */
public class StringIndexOutOfBoundsException extends java.lang.StringIndexOutOfBoundsException {
    public StringIndexOutOfBoundsException() {
    }

    public StringIndexOutOfBoundsException(String message) {
        super(message);
    }

    public StringIndexOutOfBoundsException(int at) {
        super("String index out of range: " + at);
    }
}
