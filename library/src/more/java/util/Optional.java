package more.java.util;

import java.util.function.Consumer;
import java.util.function.Function;
import java.util.function.Predicate;
import java.util.function.Supplier;

/** Members of java.util.Optional. */
public final class Optional {
    private Optional() {
    }

    public static void ifPresent(java.util.Optional of, Consumer action) {
        if (of.isPresent()) {
            action.accept(of.get());
        }
    }

    public static java.util.Optional map(java.util.Optional of, Function function) {
        return of.isPresent() ? java.util.Optional.ofNullable(function.apply(of.get())) : of;
    }

    public static java.util.Optional flatMap(java.util.Optional of, Function function) {
        return of.isPresent() ? (java.util.Optional) function.apply(of.get()) : of;
    }

    public static java.util.Optional filter(java.util.Optional of, Predicate filter) {
        return of.isPresent() && !filter.test(of.get()) ? java.util.Optional.empty() : of;
    }

    public static Object orElseGet(java.util.Optional of, Supplier other) {
        return of.isPresent() ? of.get() : other.get();
    }

    public static Object orElseThrow(java.util.Optional of, Supplier other) throws Throwable {
        if (of.isPresent()) {
            return of.get();
        }
        throw (Throwable) other.get();
    }
}
