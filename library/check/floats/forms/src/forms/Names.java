package forms;

/** A method whose name is the one that the other gets. */
public class Names {
    public double max(double a, double b) {
        return a > b ? a : b;
    }

    public long max$DDD(long a, long b) {
        return 7;
    }

    public static class Above {
        public double of(double a) {
            return 1;
        }

        public double ask(double a) {
            return of(a);
        }
    }

    public static class Below extends Above {
        public long of$DD(long a) {
            return 7;
        }
    }
}
