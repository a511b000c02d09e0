package more.java.util;

/** The profile's own list, which is walked in few steps. */
final class Order extends java.util.ArrayList<Object> {
    Order(int capacity) {
        super(capacity);
    }
}
