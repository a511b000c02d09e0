package outside;

import java.util.ArrayList;
import java.util.List;
import java.util.Map;
import java.util.TreeMap;

/** Classes and methods of the library that aren't there. */
public class Names {
    public static List<String> of(Map<String, Integer> map) {
        List<String> names = new ArrayList<>();
        for (Map.Entry<String, Integer> entry : map.entrySet()) {
            names.add(entry.getKey().trim());
        }
        return names;
    }

    public static Map<String, Integer> sorted() {
        return new TreeMap<>();
    }

    public static int safely(Runnable action) {
        try {
            action.run();
            return 1;
        } catch (RuntimeException failure) {
            failure.printStackTrace();
            return failure.getStackTrace().length;
        } finally {
            System.out.println("done");
        }
    }

    public static void begin(Runnable action) {
        new Thread(action).start();
    }
}
