package java.util.function;

public interface ObjIntConsumer<T> {
    void accept(T of, int number);
}
