package more.java.util;

import java.util.function.Consumer;

/** Members of java.util.Iterator. */
public interface Iterator<E> extends java.util.Iterator<E> {
    @Override
    default void remove() {
        throw new UnsupportedOperationException("remove");
    }

    @Override
    default void forEachRemaining(Consumer<? super E> action) {
        while (hasNext()) {
            action.accept(next());
        }
    }

    static void remove(java.util.Iterator of) {
        if (of instanceof Iterator) {
            ((Iterator) of).remove();
        } else {
            Nulls.refuse(of);
            of.remove();
        }
    }

    static void forEachRemaining(java.util.Iterator of, Consumer action) {
        while (of.hasNext()) {
            action.accept(of.next());
        }
    }
}
