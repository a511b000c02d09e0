package outside;

/** A superclass that isn't there. */
public class Worker extends Thread {
    @Override
    public void run() {
        yield();
    }
}
