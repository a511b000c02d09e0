package more.java.lang;

import java.lang.String;

/** java.lang.ArrayIndexOutOfBoundsException with its constructor for an index. */
public class ArrayIndexOutOfBoundsException extends java.lang.ArrayIndexOutOfBoundsException {
    public ArrayIndexOutOfBoundsException() {
    }

    public ArrayIndexOutOfBoundsException(String message) {
        super(message);
    }

    public ArrayIndexOutOfBoundsException(int at) {
        super("Array index out of range: " + at);
    }
}
