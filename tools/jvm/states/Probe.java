package states;

import java.util.BitSet;
import java.util.concurrent.CountDownLatch;
import java.util.concurrent.TimeUnit;
import java.util.concurrent.locks.LockSupport;

/** What the probes in the program's code tell: the steps of a run, and the lines that it reached, by numbers. One run goes at a time. */
public final class Probe {
    private static long limit;
    private static BitSet reached;
    private static long steps;
    private static CountDownLatch ended;

    private Probe() {
    }

    static void begin(long most) {
        steps = 0;
        limit = most;
        reached = new BitSet();
        ended = new CountDownLatch(1);
    }

    static void end() {
        ended.countDown();
    }

    /** Whether the run ended, or took too many steps, before so many seconds were over. */
    static boolean awaitEnd(long seconds) throws InterruptedException {
        return ended.await(seconds, TimeUnit.SECONDS);
    }

    static boolean isExceeded() {
        return steps > limit;
    }

    static long steps() {
        return steps;
    }

    static BitSet reached() {
        return reached;
    }

    /** Stands before each instruction. */
    public static void at(int line) {
        at(line, 1);
    }

    /** Stands before so many instructions of a line. A run with too many steps stops here for good: an exception could be caught. */
    public static void at(int line, int count) {
        steps += count;
        if (steps > limit) {
            end();
            while (true) {
                LockSupport.park();
            }
        }
        reached.set(line);
    }
}
