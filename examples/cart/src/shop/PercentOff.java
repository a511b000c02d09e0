package shop;

import java.util.List;

/** So many percent off the whole sum, where that is large enough. A part of a cent is the customer's. */
public class PercentOff implements Discount {
    private final int percent;
    private final int from;

    public PercentOff(int percent, int from) {
        if (percent < 1 || percent > 100) {
            throw new IllegalArgumentException(percent + " percent");
        }
        this.percent = percent;
        this.from = from;
    }

    @Override
    public String name() {
        return percent + "% off";
    }

    @Override
    public int cents(List<Line> lines) {
        int sum = 0;
        for (Line line : lines) {
            sum += line.cents();
        }
        return sum < from ? 0 : (sum * percent + 99) / 100;
    }
}
