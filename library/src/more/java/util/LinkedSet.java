package more.java.util;

/** A HashSet with the order of insertion. */
public class LinkedSet<E> extends HashSet<E> {
    public LinkedSet() {
        super(new LinkedMap<>());
    }
}
