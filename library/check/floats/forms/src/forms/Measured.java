package forms;

/** A generic interface of Numbers. */
public interface Measured<T extends Number> {
    T size(T by);
}
