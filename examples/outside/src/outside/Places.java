package outside;

import java.util.HashMap;

/** A map with a method that the library's own code takes for its own. */
public class Places extends HashMap<String, Integer> {
    public int find(Object name) {
        Integer place = get(name);
        return place == null ? -1 : place;
    }
}
