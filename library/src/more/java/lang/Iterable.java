package more.java.lang;

import java.util.Iterator;
import java.util.function.Consumer;

/** Members of java.lang.Iterable. */
public interface Iterable<T> extends java.lang.Iterable<T> {
    @Override
    default void forEach(Consumer<? super T> action) {
        walk(iterator(), action);
    }

    static void forEach(java.lang.Iterable of, Consumer action) {
        if (of instanceof Iterable) {
            ((Iterable) of).forEach(action);
        } else {
            walk(of.iterator(), action);
        }
    }

    static void walk(Iterator of, Consumer action) {
        while (of.hasNext()) {
            action.accept(of.next());
        }
    }
}
