package java.util;

public class IllegalFormatConversionException extends IllegalFormatException {
    private final char conversion;
    private final Class<?> kind;

    public IllegalFormatConversionException(char conversion, Class<?> kind) {
        this.conversion = conversion;
        this.kind = kind;
    }

    @Override
    public String getMessage() {
        return conversion + " != " + kind.getName();
    }
}
