package more.java.lang;

import java.lang.String;
import java.lang.Throwable;

/** java.lang.AssertionError with its constructor for whatever. */
public class AssertionError extends java.lang.AssertionError {
    public AssertionError() {
    }

    public AssertionError(Object of) {
        super(String.valueOf(of), of instanceof Throwable ? (Throwable) of : null);
    }

    public AssertionError(String message, Throwable cause) {
        super(message, cause);
    }
}
