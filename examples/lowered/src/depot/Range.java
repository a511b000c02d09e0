package depot;

import java.util.AbstractList;
import java.util.function.IntUnaryOperator;

/** The numbers from one to another, each by a rule. */
public class Range extends AbstractList<Integer> {
    private final int from;
    private final int to;
    private final IntUnaryOperator rule;

    public Range(int from, int to, IntUnaryOperator rule) {
        this.from = from;
        this.to = Math.max(from, to);
        this.rule = rule;
    }

    @Override
    public Integer get(int at) {
        if (at < 0 || at >= size()) {
            throw new IndexOutOfBoundsException("at " + at);
        }
        return rule.applyAsInt(from + at);
    }

    @Override
    public int size() {
        return to - from;
    }

    public static int twice(int of) {
        return of * 2;
    }
}
