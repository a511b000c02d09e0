package java.nio.charset;

public class IllegalCharsetNameException extends IllegalArgumentException {
    public IllegalCharsetNameException(String message) {
        super(message);
    }
}
