// Loops of some 20 to 70 million instructions each, for `bench/steps.sh`.
public class Steps {
    int field;

    // A counted loop: 7 instructions a round.
    public void count() {
        int left = 10000000;
        while (left > 0) {
            left = left - 1;
        }
    }

    static int plus(int a, int b) {
        return a + b;
    }

    // A loop with a static call.
    public void calls() {
        int sum = 0;
        for (int i = 0; i < 3000000; i++) {
            sum = plus(sum, i);
        }
        field = sum;
    }

    int next(int by) {
        field = field + by;
        return field;
    }

    // A loop with fields and a call that is selected by the object.
    public void fields() {
        for (int i = 0; i < 2000000; i++) {
            if (next(i) == -1) {
                field = 0;
            }
        }
    }

    // Arrays that are made and filled.
    public void arrays() {
        int sum = 0;
        for (int i = 0; i < 20000; i++) {
            int[] xs = new int[64];
            for (int j = 0; j < xs.length; j++) {
                xs[j] = j;
            }
            sum = sum + xs[i % 64];
        }
        field = sum;
    }

    static void refuse(int i) {
        if (i >= 0) {
            throw new IllegalArgumentException("no");
        }
    }

    // Exceptions that are thrown and caught a frame above.
    public void exceptions() {
        int caught = 0;
        for (int i = 0; i < 200000; i++) {
            try {
                refuse(i);
            } catch (IllegalArgumentException e) {
                caught = caught + 1;
            }
        }
        field = caught;
    }

    public static void main(String[] words) throws Exception {
        Steps steps = new Steps();
        long start = System.nanoTime();
        switch (words[0]) {
            case "count": steps.count(); break;
            case "calls": steps.calls(); break;
            case "fields": steps.fields(); break;
            case "arrays": steps.arrays(); break;
            default: steps.exceptions(); break;
        }
        System.out.println(System.nanoTime() - start);
    }
}
