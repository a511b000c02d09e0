package depot;

import java.util.ArrayList;
import java.util.Collections;
import java.util.Comparator;
import java.util.List;
import java.util.Map;
import java.util.TreeMap;

/** Things by name with how many there are of each. */
public class Shelf {
    private final Map<String, Integer> counts = new TreeMap<>();

    public void put(String name, int count) {
        if (count <= 0) {
            throw new IllegalArgumentException("count " + count);
        }
        counts.put(name, counts.getOrDefault(name, 0) + count);
    }

    public int count(String name) {
        return counts.getOrDefault(name.trim(), 0);
    }

    public int total() {
        int total = 0;
        for (Map.Entry<String, Integer> entry : counts.entrySet()) {
            total += entry.getValue();
        }
        return total;
    }

    /** Takes away what there are less than so many of. */
    public boolean clearBelow(int least) {
        return counts.values().removeIf(count -> count < least);
    }

    public List<String> byCount() {
        List<String> names = new ArrayList<>(counts.keySet());
        names.sort(Comparator.comparing((String name) -> -counts.get(name)).thenComparing(name -> name));
        return Collections.unmodifiableList(names);
    }

    public double mean() {
        return counts.isEmpty() ? 0 : (double) total() / counts.size();
    }

    public boolean isCrowded(int places) {
        return counts.size() * 1.5 > places;
    }

    public native int weigh();
}
