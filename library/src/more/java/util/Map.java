package more.java.util;

import java.util.Set;
import java.util.function.BiConsumer;
import java.util.function.BiFunction;
import java.util.function.Function;

/** Members of java.util.Map. */
public interface Map<K, V> extends java.util.Map<K, V> {
    @Override
    Set<java.util.Map.Entry<K, V>> entrySet();

    @Override
    boolean containsValue(Object value);

    @Override
    void putAll(java.util.Map<? extends K, ? extends V> others);

    @Override
    default V getOrDefault(Object key, V other) {
        V found = get(key);
        return found != null || containsKey(key) ? found : other;
    }

    @Override
    default V putIfAbsent(K key, V value) {
        V found = get(key);
        return found == null ? put(key, value) : found;
    }

    @Override
    default boolean remove(Object key, Object value) {
        Object found = get(key);
        if (!(found == null ? value == null : found.equals(value)) || found == null && !containsKey(key)) {
            return false;
        }
        remove(key);
        return true;
    }

    @Override
    default boolean replace(K key, V old, V value) {
        Object found = get(key);
        if (!(found == null ? old == null : found.equals(old)) || found == null && !containsKey(key)) {
            return false;
        }
        put(key, value);
        return true;
    }

    @Override
    default V replace(K key, V value) {
        return get(key) != null || containsKey(key) ? put(key, value) : null;
    }

    @Override
    default void forEach(BiConsumer<? super K, ? super V> action) {
        for (java.util.Map.Entry<K, V> entry : entrySet()) {
            action.accept(entry.getKey(), entry.getValue());
        }
    }

    @Override
    default void replaceAll(BiFunction<? super K, ? super V, ? extends V> function) {
        for (java.util.Map.Entry<K, V> entry : entrySet()) {
            entry.setValue(function.apply(entry.getKey(), entry.getValue()));
        }
    }

    @Override
    default V computeIfAbsent(K key, Function<? super K, ? extends V> function) {
        V found = get(key);
        if (found == null) {
            found = function.apply(key);
            if (found != null) {
                put(key, found);
            }
        }
        return found;
    }

    @Override
    default V computeIfPresent(K key, BiFunction<? super K, ? super V, ? extends V> function) {
        V old = get(key);
        return old == null ? null : putComputed(key, function.apply(key, old), true);
    }

    @Override
    default V compute(K key, BiFunction<? super K, ? super V, ? extends V> function) {
        V old = get(key);
        return putComputed(key, function.apply(key, old), old != null || containsKey(key));
    }

    @Override
    default V merge(K key, V value, BiFunction<? super V, ? super V, ? extends V> function) {
        if (value == null) {
            throw new NullPointerException();
        }
        V old = get(key);
        return putComputed(key, old == null ? value : function.apply(old, value), true);
    }

    default V putComputed(K key, V value, boolean wasThere) {
        if (value != null) {
            put(key, value);
        } else if (wasThere) {
            remove(key);
        }
        return value;
    }

    // For a map of the profile's own library, by what it has; for one of a JVM, its own member.

    static Set entrySet(java.util.Map of) {
        if (of instanceof Map) {
            return ((Map) of).entrySet();
        }
        try {
            return of.entrySet();
        } catch (NoSuchMethodError none) {
            Nulls.refuse(of);
            return ((Map) (Object) new WrappedMap(of)).entrySet();
        }
    }

    static boolean containsValue(java.util.Map of, Object value) {
        if (of instanceof Map) {
            return ((Map) of).containsValue(value);
        }
        try {
            return of.containsValue(value);
        } catch (NoSuchMethodError none) {
            Nulls.refuse(of);
            return ((Map) (Object) new WrappedMap(of)).containsValue(value);
        }
    }

    static void putAll(java.util.Map of, java.util.Map others) {
        if (of instanceof Map) {
            ((Map) of).putAll(others);
            return;
        }
        try {
            of.putAll(others);
        } catch (NoSuchMethodError none) {
            Nulls.refuse(of);
            ((Map) (Object) new WrappedMap(of)).putAll(others);
        }
    }

    static Object getOrDefault(java.util.Map of, Object key, Object other) {
        if (of instanceof Map) {
            return ((Map) of).getOrDefault(key, other);
        }
        try {
            return of.getOrDefault(key, other);
        } catch (NoSuchMethodError none) {
            Nulls.refuse(of);
            return ((Map) (Object) new WrappedMap(of)).getOrDefault(key, other);
        }
    }

    static Object putIfAbsent(java.util.Map of, Object key, Object value) {
        if (of instanceof Map) {
            return ((Map) of).putIfAbsent(key, value);
        }
        try {
            return of.putIfAbsent(key, value);
        } catch (NoSuchMethodError none) {
            Nulls.refuse(of);
            return ((Map) (Object) new WrappedMap(of)).putIfAbsent(key, value);
        }
    }

    static boolean remove(java.util.Map of, Object key, Object value) {
        if (of instanceof Map) {
            return ((Map) of).remove(key, value);
        }
        try {
            return of.remove(key, value);
        } catch (NoSuchMethodError none) {
            Nulls.refuse(of);
            return ((Map) (Object) new WrappedMap(of)).remove(key, value);
        }
    }

    static boolean replace(java.util.Map of, Object key, Object old, Object value) {
        if (of instanceof Map) {
            return ((Map) of).replace(key, old, value);
        }
        try {
            return of.replace(key, old, value);
        } catch (NoSuchMethodError none) {
            Nulls.refuse(of);
            return ((Map) (Object) new WrappedMap(of)).replace(key, old, value);
        }
    }

    static Object replace(java.util.Map of, Object key, Object value) {
        if (of instanceof Map) {
            return ((Map) of).replace(key, value);
        }
        try {
            return of.replace(key, value);
        } catch (NoSuchMethodError none) {
            Nulls.refuse(of);
            return ((Map) (Object) new WrappedMap(of)).replace(key, value);
        }
    }

    static void forEach(java.util.Map of, BiConsumer action) {
        if (of instanceof Map) {
            ((Map) of).forEach(action);
            return;
        }
        try {
            of.forEach(action);
        } catch (NoSuchMethodError none) {
            Nulls.refuse(of);
            ((Map) (Object) new WrappedMap(of)).forEach(action);
        }
    }

    static void replaceAll(java.util.Map of, BiFunction function) {
        if (of instanceof Map) {
            ((Map) of).replaceAll(function);
            return;
        }
        try {
            of.replaceAll(function);
        } catch (NoSuchMethodError none) {
            Nulls.refuse(of);
            ((Map) (Object) new WrappedMap(of)).replaceAll(function);
        }
    }

    static Object computeIfAbsent(java.util.Map of, Object key, Function function) {
        if (of instanceof Map) {
            return ((Map) of).computeIfAbsent(key, function);
        }
        try {
            return of.computeIfAbsent(key, function);
        } catch (NoSuchMethodError none) {
            Nulls.refuse(of);
            return ((Map) (Object) new WrappedMap(of)).computeIfAbsent(key, function);
        }
    }

    static Object computeIfPresent(java.util.Map of, Object key, BiFunction function) {
        if (of instanceof Map) {
            return ((Map) of).computeIfPresent(key, function);
        }
        try {
            return of.computeIfPresent(key, function);
        } catch (NoSuchMethodError none) {
            Nulls.refuse(of);
            return ((Map) (Object) new WrappedMap(of)).computeIfPresent(key, function);
        }
    }

    static Object compute(java.util.Map of, Object key, BiFunction function) {
        if (of instanceof Map) {
            return ((Map) of).compute(key, function);
        }
        try {
            return of.compute(key, function);
        } catch (NoSuchMethodError none) {
            Nulls.refuse(of);
            return ((Map) (Object) new WrappedMap(of)).compute(key, function);
        }
    }

    static Object merge(java.util.Map of, Object key, Object value, BiFunction function) {
        if (of instanceof Map) {
            return ((Map) of).merge(key, value, function);
        }
        try {
            return of.merge(key, value, function);
        } catch (NoSuchMethodError none) {
            Nulls.refuse(of);
            return ((Map) (Object) new WrappedMap(of)).merge(key, value, function);
        }
    }
}
