package java.util;

import java.util.function.BiConsumer;
import java.util.function.BiFunction;
import java.util.function.Function;

/** Here for Map.Entry alone: the profile's own library has Map, so compile.sh leaves out its class file. */
public interface Map<K, V> {
    int size();

    boolean isEmpty();

    boolean containsKey(Object key);

    boolean containsValue(Object value);

    V get(Object key);

    V put(K key, V value);

    V remove(Object key);

    void putAll(Map<? extends K, ? extends V> others);

    void clear();

    Set<K> keySet();

    Collection<V> values();

    Set<Map.Entry<K, V>> entrySet();

    default V getOrDefault(Object key, V other) {
        return null;
    }

    default V putIfAbsent(K key, V value) {
        return null;
    }

    default boolean remove(Object key, Object value) {
        return false;
    }

    default boolean replace(K key, V old, V value) {
        return false;
    }

    default V replace(K key, V value) {
        return null;
    }

    default void forEach(BiConsumer<? super K, ? super V> action) {
    }

    default void replaceAll(BiFunction<? super K, ? super V, ? extends V> function) {
    }

    default V computeIfAbsent(K key, Function<? super K, ? extends V> function) {
        return null;
    }

    default V computeIfPresent(K key, BiFunction<? super K, ? super V, ? extends V> function) {
        return null;
    }

    default V compute(K key, BiFunction<? super K, ? super V, ? extends V> function) {
        return null;
    }

    default V merge(K key, V value, BiFunction<? super V, ? super V, ? extends V> function) {
        return null;
    }

    interface Entry<K, V> {
        K getKey();

        V getValue();

        V setValue(V to);

        boolean equals(Object other);

        int hashCode();

        static <K extends Comparable<? super K>, V> Comparator<Map.Entry<K, V>> comparingByKey() {
            return (one, other) -> one.getKey().compareTo(other.getKey());
        }

        static <K, V extends Comparable<? super V>> Comparator<Map.Entry<K, V>> comparingByValue() {
            return (one, other) -> one.getValue().compareTo(other.getValue());
        }
    }
}
