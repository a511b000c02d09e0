package java.lang.reflect;

public class UndeclaredThrowableException extends RuntimeException {
    private final Throwable undeclared;

    public UndeclaredThrowableException(Throwable undeclared) {
        this(undeclared, null);
    }

    public UndeclaredThrowableException(Throwable undeclared, String message) {
        super(message, undeclared);
        this.undeclared = undeclared;
    }

    public Throwable getUndeclaredThrowable() {
        return undeclared;
    }

    @Override
    public Throwable getCause() {
        return undeclared;
    }
}
