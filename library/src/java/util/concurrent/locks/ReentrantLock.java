package java.util.concurrent.locks;

import java.io.Serializable;

/** There is one thread. */
public class ReentrantLock implements Lock, Serializable {
    private int count;

    public ReentrantLock() {
    }

    public ReentrantLock(boolean isFair) {
    }

    @Override
    public void lock() {
        count++;
    }

    @Override
    public void lockInterruptibly() throws InterruptedException {
        count++;
    }

    @Override
    public boolean tryLock() {
        count++;
        return true;
    }

    @Override
    public void unlock() {
        if (count == 0) {
            throw new IllegalMonitorStateException();
        }
        count--;
    }

    public int getHoldCount() {
        return count;
    }

    public boolean isLocked() {
        return count > 0;
    }

    public boolean isHeldByCurrentThread() {
        return count > 0;
    }
}
