import java.lang.reflect.InvocationTargetException;
import java.util.ArrayList;
import java.util.Iterator;
import java.util.LinkedHashMap;
import java.util.LinkedHashSet;
import java.util.List;
import java.util.Map;
import java.util.Objects;
import java.util.Set;

/**
 * The programs of `crates/library_tries/specs/*Tries.antt` in Java, each by its name there, and how
 * each ends. Maps and sets are those that walk in order of insertion, as this library's do.
 */
public class LibraryTries {
    interface Program {
        void run() throws Throwable;
    }

    /** What is wrong in a program whose parts give something else. */
    static class Differs extends RuntimeException {}

    static void told(String name, Program program) {
        String end;
        try {
            program.run();
            end = "passes";
        } catch (Differs e) {
            end = "differs";
        } catch (ReflectiveOperationException e) {
            end = "untried";
        } catch (Throwable e) {
            end = "throws " + e.getClass().getName().replace('.', '/');
        }
        System.out.println(name + " " + end);
    }

    static void is(int given, int wanted) {
        if (given != wanted) {
            throw new Differs();
        }
    }

    static void is(boolean given, int wanted) {
        is(given ? 1 : 0, wanted);
    }

    static void same(Object given, Object wanted) {
        if (given != wanted) {
            throw new Differs();
        }
    }

    static Integer boxed(int number) {
        return Integer.valueOf(number);
    }

    @SafeVarargs
    static List<Object> list(Object... elements) {
        List<Object> list = new ArrayList<>();
        for (Object element : elements) {
            list.add(element);
        }
        return list;
    }

    /** A map of keys and values, one behind the other. */
    static Map<Object, Object> map(Object... entries) {
        Map<Object, Object> map = new LinkedHashMap<>();
        for (int i = 0; i < entries.length; i += 2) {
            map.put(entries[i], entries[i + 1]);
        }
        return map;
    }

    static Set<Object> set(Object... elements) {
        Set<Object> set = new LinkedHashSet<>();
        for (Object element : elements) {
            set.add(element);
        }
        return set;
    }

    /** The place of a key in a map: Java's map has no `find`. */
    static int find(Map<Object, Object> map, Object key) {
        return new ArrayList<>(map.keySet()).indexOf(key);
    }

    /** An assertion of a class of JUnit, where it is on the class path. */
    static void asserts(String type, String name, Object x, Object y) throws Throwable {
        try {
            Class.forName(type).getMethod(name, Object.class, Object.class).invoke(null, x, y);
        } catch (InvocationTargetException e) {
            throw e.getCause() instanceof AssertionError ? new AssertionError() : e.getCause();
        }
    }

    static void objects() {
        told("same_are_equal", () -> is(Objects.equals("a", "a"), 1));
        told("nulls_are_equal", () -> is(Objects.equals(null, null), 1));
        told("null_is_no_text", () -> is(Objects.equals(null, "a"), 0));
        told("text_is_not_null", () -> is(Objects.equals("a", null), 0));
        told("boxes_are_equal", () -> is(Objects.equals(boxed(1000), boxed(1000)), 1));
        told("texts_are_unequal", () -> is(Objects.equals("Aa", "BB"), 0));
        told("null_has_hash_0", () -> is(Objects.hashCode(null), 0));
        told("hashes_are_equal", () -> {
            is(Objects.hashCode("Aa"), 2112);
            is(Objects.hashCode("BB"), 2112);
        });
        told("null_has_a_text", () -> same(String.valueOf((Object) null), "null"));
        told("text_is_its_text", () -> same(String.valueOf((Object) "a"), "a"));
        told("box_has_a_text", () -> is(String.valueOf((Object) boxed(12)).equals("12"), 1));
        told("append_of_null", () -> is(new StringBuilder().append((Object) null).toString().equals("null"), 1));
        told("append_of_objects", () -> {
            StringBuilder builder = new StringBuilder();
            builder.append((Object) boxed(12));
            builder.append((Object) "a");
            is(builder.toString().equals("12a"), 1);
        });
    }

    static void indices() {
        told("index_of_first", () -> is(list("a", "b").indexOf("a"), 0));
        told("index_of_second", () -> is(list("a", "b").indexOf("b"), 1));
        told("index_of_none", () -> is(list("a", "b").indexOf("c"), -1));
        told("index_in_nothing", () -> is(list().indexOf("a"), -1));
        told("index_of_null", () -> is(list("a", null).indexOf(null), 1));
        told("index_past_null", () -> is(list(null, "a").indexOf("a"), 1));
        told("index_of_equal", () -> is(list(boxed(1000)).indexOf(boxed(1000)), 0));
        told("index_of_twice", () -> is(list("a", "b", "b").indexOf("b"), 1));
        told("contains_second", () -> is(list("a", "b").contains("b"), 1));
        told("contains_none", () -> is(list("a").contains("b"), 0));
        told("contains_null", () -> is(list((Object) null).contains(null), 1));
        told("contains_no_null", () -> is(list("a").contains(null), 0));
    }

    static void removals() {
        told("removal_in_the_middle", () -> {
            List<Object> list = list("a", "b", "c");
            is(list.remove("b"), 1);
            is(list.size(), 2);
            same(list.get(0), "a");
            same(list.get(1), "c");
        });
        told("removal_of_none", () -> {
            List<Object> list = list("a");
            is(list.remove("b"), 0);
            is(list.size(), 1);
        });
        told("removal_of_null", () -> {
            List<Object> list = list(null, "a");
            is(list.remove(null), 1);
            is(list.size(), 1);
            same(list.get(0), "a");
        });
        told("removal_of_one_of_two", () -> {
            List<Object> list = list("a", "b", "a");
            is(list.remove("a"), 1);
            is(list.size(), 2);
            same(list.get(0), "b");
            same(list.get(1), "a");
        });
        told("removal_of_an_object", () -> {
            List<Object> list = list(boxed(1), boxed(0));
            is(list.remove((Object) boxed(0)), 1);
            is(list.size(), 1);
            is((Integer) list.get(0), 1);
        });
        told("removal_of_a_place", () -> {
            List<Object> list = list(boxed(1), boxed(0));
            is((Integer) list.remove(0), 1);
            is(list.size(), 1);
            is((Integer) list.get(0), 0);
        });
    }

    static void equalities() {
        told("equal_lists", () -> is(list("a", boxed(1000)).equals(list("a", boxed(1000))), 1));
        told("equal_empty_lists", () -> is(list().equals(list()), 1));
        told("equal_nulls_in_lists", () -> is(list((Object) null).equals(list((Object) null)), 1));
        told("longer_list", () -> is(list("a", "b").equals(list("a")), 0));
        told("shorter_list", () -> is(list("a").equals(list("a", "b")), 0));
        told("lists_that_differ", () -> is(list("a", "b").equals(list("a", "c")), 0));
        told("null_in_a_list", () -> is(list((Object) null).equals(list("a")), 0));
        told("list_and_null", () -> is(list().equals(null), 0));
        told("list_and_text", () -> is(list().equals((Object) "a"), 0));
        told("lists_of_lists", () -> is(list(list("a")).equals(list(list("a"))), 1));
    }

    static void finds() {
        told("find_in_nothing", () -> is(find(map(), "a"), -1));
        told("find_first", () -> is(find(map("a", "x"), "a"), 0));
        told("find_second", () -> is(find(map("a", "x", "b", "y"), "b"), 1));
        told("find_second_of_one_hash", () -> is(find(map("Aa", "x", "BB", "y"), "BB"), 1));
        told("find_none_of_the_hash", () -> is(find(map("Aa", "x"), "BB"), -1));
        told("find_none", () -> is(find(map("a", "x"), "b"), -1));
        told("find_null", () -> is(find(map(null, "x"), null), 0));
        told("find_null_of_empty", () -> is(find(map("", "x"), null), -1));
        told("find_equal", () -> is(find(map(boxed(1000), "x"), boxed(1000)), 0));
    }

    static void maps() {
        told("get_found", () -> same(map("a", "x", "b", "y").get("b"), "y"));
        told("get_none", () -> same(map("a", "x").get("b"), null));
        told("get_of_one_hash", () -> {
            same(map("Aa", "x", "BB", "y").get("Aa"), "x");
            same(map("Aa", "x", "BB", "y").get("BB"), "y");
        });
        told("get_none_of_the_hash", () -> same(map("Aa", "x").get("BB"), null));
        told("get_of_null", () -> same(map(null, "x").get(null), "x"));
        told("get_a_null", () -> {
            same(map("a", null).get("a"), null);
            is(map("a", null).containsKey("a"), 1);
        });
        told("put_a_new_key", () -> {
            Map<Object, Object> map = map();
            same(map.put("a", "x"), null);
            is(map.size(), 1);
        });
        told("put_replaces", () -> {
            Map<Object, Object> map = map("a", "x");
            same(map.put("a", "y"), "x");
            is(map.size(), 1);
            same(map.get("a"), "y");
        });
        told("put_of_one_hash", () -> {
            Map<Object, Object> map = map("Aa", "x");
            same(map.put("BB", "y"), null);
            is(map.size(), 2);
        });
        told("put_null_twice", () -> {
            Map<Object, Object> map = map();
            same(map.put(null, "x"), null);
            same(map.put(null, "y"), "x");
            is(map.size(), 1);
        });
        told("remove_in_the_middle", () -> {
            Map<Object, Object> map = map("a", "x", "b", "y", "c", "z");
            same(map.remove("b"), "y");
            is(map.size(), 2);
            same(map.get("b"), null);
            same(map.get("c"), "z");
        });
        told("remove_none", () -> {
            Map<Object, Object> map = map("a", "x");
            same(map.remove("b"), null);
            is(map.size(), 1);
        });
        told("remove_none_of_the_hash", () -> {
            Map<Object, Object> map = map("Aa", "x");
            same(map.remove("BB"), null);
            is(map.size(), 1);
        });
        told("remove_null", () -> {
            Map<Object, Object> map = map(null, "x");
            same(map.remove(null), "x");
            is(map.size(), 0);
        });
        told("contains_second_key", () -> is(map("a", "x", "b", "y").containsKey("b"), 1));
        told("contains_no_key", () -> is(map("Aa", "x").containsKey("BB"), 0));
        told("contains_key_null", () -> {
            is(map().containsKey(null), 0);
            is(map(null, "x").containsKey(null), 1);
        });
    }

    static void sets() {
        told("add_twice", () -> {
            Set<Object> set = set();
            is(set.add("a"), 1);
            is(set.add("a"), 0);
            is(set.size(), 1);
        });
        told("add_of_one_hash", () -> {
            Set<Object> set = set("Aa");
            is(set.add("BB"), 1);
            is(set.size(), 2);
        });
        told("add_null_twice", () -> {
            Set<Object> set = set();
            is(set.add(null), 1);
            is(set.add(null), 0);
            is(set.size(), 1);
        });
        told("contains_an_element", () -> is(set("a", "b").contains("b"), 1));
        told("contains_one_of_the_hash", () -> {
            is(set("Aa").contains("BB"), 0);
            is(set("Aa", "BB").contains("BB"), 1);
        });
        told("contains_not_null", () -> is(set().contains(null), 0));
        told("contains_a_null", () -> is(set((Object) null).contains(null), 1));
        told("taken_from_the_middle", () -> {
            Set<Object> set = set("a", "b", "c");
            is(set.remove("b"), 1);
            is(set.size(), 2);
            is(set.contains("b"), 0);
            is(set.contains("c"), 1);
        });
        told("none_is_taken", () -> {
            Set<Object> set = set("a");
            is(set.remove("b"), 0);
            is(set.size(), 1);
        });
        told("none_of_the_hash_is_taken", () -> {
            Set<Object> set = set("Aa");
            is(set.remove("BB"), 0);
            is(set.size(), 1);
        });
        told("null_is_taken", () -> {
            Set<Object> set = set((Object) null);
            is(set.remove(null), 1);
            is(set.size(), 0);
        });
    }

    /** These are what comes next, and nothing more does. */
    static void walks(Iterator<?> iterator, Object... wanted) {
        for (Object element : wanted) {
            is(iterator.hasNext(), 1);
            same(iterator.next(), element);
        }
        is(iterator.hasNext(), 0);
    }

    static void walks() {
        told("walk_of_a_list", () -> walks(list("b", "a").iterator(), "b", "a"));
        told("walk_of_a_set", () -> walks(set("c", "a", "b").iterator(), "c", "a", "b"));
        Map<Object, Object> map = map("c", "x", "a", "y", "b", "z", "c", "w");
        told("walk_of_keys", () -> walks(map.keySet().iterator(), "c", "a", "b"));
        Map<Object, Object> two = map("c", "x", "a", "y", "c", "w");
        told("walk_of_values", () -> walks(two.values().iterator(), "w", "y"));
        told("walk_behind_a_removal", () -> {
            Set<Object> set = set("c", "a", "b");
            is(set.remove("a"), 1);
            walks(set.iterator(), "c", "b");
        });
        told("change_in_a_walk", () -> {
            List<Object> list = list();
            Iterator<Object> iterator = list.iterator();
            is(iterator.hasNext(), 0);
            list.add("a");
            walks(iterator, "a");
        });
        told("walk_past_the_end", () -> {
            Iterator<Object> iterator = list("a").iterator();
            same(iterator.next(), "a");
            iterator.next();
        });
        told("place_outside", () -> list("a").get(1));
        told("negative_capacity", () -> new ArrayList<Object>(-1));
        told("list_as_a_key", () -> map(list(), "x"));
    }

    static void assertions(String type) {
        told("equal_holds " + type, () -> {
            asserts(type, "assertEquals", "a", "a");
            asserts(type, "assertEquals", null, null);
            asserts(type, "assertEquals", boxed(1000), boxed(1000));
        });
        told("equal_fails " + type, () -> asserts(type, "assertEquals", "a", "b"));
        told("equal_throws " + type, () -> asserts(type, "assertEquals", "Aa", "BB"));
        told("equal_throws_of_null " + type, () -> asserts(type, "assertEquals", null, "a"));
        told("equal_throws_to_null " + type, () -> asserts(type, "assertEquals", "a", null));
        told("unequal_holds " + type, () -> {
            asserts(type, "assertNotEquals", "Aa", "BB");
            asserts(type, "assertNotEquals", null, "a");
            asserts(type, "assertNotEquals", "a", null);
        });
        told("unequal_fails " + type, () -> asserts(type, "assertNotEquals", "a", "a"));
        told("unequal_throws " + type, () -> asserts(type, "assertNotEquals", boxed(1000), boxed(1000)));
        told("unequal_throws_of_nulls " + type, () -> asserts(type, "assertNotEquals", null, null));
    }

    public static void main(String[] args) {
        objects();
        indices();
        removals();
        equalities();
        finds();
        maps();
        sets();
        walks();
        assertions("org.junit.Assert");
        assertions("org.junit.jupiter.api.Assertions");
    }
}
