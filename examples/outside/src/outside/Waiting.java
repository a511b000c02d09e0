package outside;

import java.util.ArrayList;
import java.util.List;
import java.util.RandomAccess;

/** An object is handed on as an interface that isn't there. */
public class Waiting {
    public static boolean isQuick() {
        return takes(new ArrayList<String>());
    }

    private static boolean takes(RandomAccess list) {
        return list != null;
    }
}
