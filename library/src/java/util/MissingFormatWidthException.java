package java.util;

public class MissingFormatWidthException extends IllegalFormatException {
    private final String specifier;

    public MissingFormatWidthException(String specifier) {
        this.specifier = specifier;
    }

    @Override
    public String getMessage() {
        return specifier;
    }
}
