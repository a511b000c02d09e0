package java.util;

public class Stack<E> extends Vector<E> {
    public Stack() {
    }

    public E push(E next) {
        addElement(next);
        return next;
    }

    public E pop() {
        E top = peek();
        removeElementAt(size() - 1);
        return top;
    }

    public E peek() {
        if (size() == 0) {
            throw new EmptyStackException();
        }
        return elementAt(size() - 1);
    }

    public boolean empty() {
        return size() == 0;
    }

    public int search(Object of) {
        int at = lastIndexOf(of);
        return at < 0 ? -1 : size() - at;
    }

    @Override
    public Object clone() {
        Stack<E> made = new Stack<>();
        made.elementData = toArray();
        made.elementCount = elementCount;
        return made;
    }
}
