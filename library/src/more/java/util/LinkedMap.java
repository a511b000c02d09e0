package more.java.util;

import java.util.Map;

/** A HashMap with the order of insertion, or of access. */
public class LinkedMap<K, V> extends HashMap<K, V> {
    private Node<K, V> head;
    private Node<K, V> tail;
    private final boolean byAccess;

    public LinkedMap() {
        byAccess = false;
    }

    LinkedMap(boolean byAccess) {
        this.byAccess = byAccess;
    }

    public LinkedMap(int capacity, boolean byAccess) {
        super(capacity);
        this.byAccess = byAccess;
    }

    @Override
    void added(Node<K, V> node) {
        node.before = tail;
        node.after = null;
        if (tail == null) {
            head = node;
        } else {
            tail.after = node;
        }
        tail = node;
    }

    @Override
    void removed(Node<K, V> node) {
        if (node.before == null) {
            head = node.after;
        } else {
            node.before.after = node.after;
        }
        if (node.after == null) {
            tail = node.before;
        } else {
            node.after.before = node.before;
        }
    }

    @Override
    void touched(Node<K, V> node) {
        if (byAccess) {
            removed(node);
            added(node);
        }
    }

    @Override
    void read(Node<K, V> node) {
        touched(node);
    }

    @Override
    boolean isByRows() {
        return false;
    }

    @Override
    void cleared() {
        head = null;
        tail = null;
    }

    @Override
    Node<K, V> next(Node<K, V> node) {
        return node == null ? head : node.after;
    }

    @Override
    void inserted() {
        if (head != null && removesEldest(head)) {
            cut(head);
        }
    }

    protected boolean removesEldest(Map.Entry<K, V> eldest) {
        return false;
    }

    @Override
    public V get(Object key) {
        Node<K, V> found = node(key);
        if (found == null) {
            return null;
        }
        touched(found);
        return found.getValue();
    }
}
