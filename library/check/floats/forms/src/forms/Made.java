package forms;

/** Constructors that only floats tell apart. */
public class Made {
    public final String by;

    public Made(int of) {
        by = "int";
    }

    public Made(float of) {
        by = of > 1 ? "float" : "small float";
    }

    public Made(long of) {
        by = "long";
    }

    public Made(double of) {
        this(of, new double[] {of});
    }

    public Made(double of, double[] more) {
        by = "double" + more.length;
    }

    public Made(double of, long[] more) {
        by = "longs" + more.length;
    }

    public Made(Object[] of) {
        by = "objects";
    }

    public Made(Number[] of) {
        by = "numbers";
    }

    public static class Below extends Made {
        public Below(double of) {
            super(of > 0 ? of : -of);
        }

        public Below(int of) {
            super((float) of);
        }
    }

    public enum Scale {
        A(1.5), B(3), C(2.5f) {
            @Override
            double twice() {
                return 1;
            }
        };

        final double size;

        Scale(double size) {
            this.size = size;
        }

        Scale(float size) {
            this.size = size * 10;
        }

        double twice() {
            return size * 2;
        }
    }
}
