package states;

import java.util.ArrayList;
import java.util.BitSet;
import java.util.HashMap;
import java.util.List;
import java.util.Map;
import java.util.TreeMap;

/** Prints of each mutant of a folder what a real JVM and a real JUnit say of it; tools/jvm-states tells more. */
public final class Main {
    private static final long MOST_STEPS = 10_000_000;
    private static final String[] STATES = {"KILLED", "SURVIVED", "NO_COVERAGE", "TIMED_OUT", "NON_VIABLE"};

    /** Whether tests that don't reach the line are left out. */
    private static final boolean COVERING = System.getenv("COVERING") != null;

    private final Program program;
    private final Probes probes;
    private final Runs runs;
    private final List<Suite.Test> tests;
    private final List<BitSet> reached = new ArrayList<>();
    private final List<Long> limits = new ArrayList<>();
    private final Map<String, Integer> counts = new HashMap<>();
    private boolean isWhole = true;

    private Main(String classes, String tests) throws Exception {
        program = new Program(classes, tests);
        probes = new Probes(program);
        runs = new Runs(program, probes);
        this.tests = Suite.tests(program);
    }

    public static void main(String[] words) {
        try {
            judgeAll(words);
        } catch (Throwable fault) {
            fault.printStackTrace();
            System.exit(2);
        }
    }

    private static void judgeAll(String[] words) throws Exception {
        Main main = new Main(words[0], words[1]);
        if (!main.runOriginals()) {
            System.exit(1);
        }
        for (byte[] file : main.program.classes.values()) {
            for (Mutant mutant : Mutators.mutants(file)) {
                main.judge(mutant);
            }
        }
        StringBuilder summary = new StringBuilder("tests " + main.tests.size());
        for (String state : STATES) {
            summary.append(' ').append(state.toLowerCase()).append(' ').append(main.counts.getOrDefault(state, 0));
        }
        System.err.println(summary);
        System.exit(main.isWhole ? 0 : 1);
    }

    private boolean runOriginals() throws Exception {
        boolean green = true;
        Map<String, byte[]> files = runs.with(null, null, probes);
        for (Suite.Test test : tests) {
            if (runs.failure(files, test, MOST_STEPS) != null) {
                System.err.println("not green: " + test.id());
                green = false;
            }
            reached.add(Probe.reached());
            limits.add(Probe.steps() + Probe.steps() / 4 + 100_000);
        }
        return green;
    }

    private void judge(Mutant mutant) throws Exception {
        List<String> covering = new ArrayList<>();
        String state = "NON_VIABLE";
        String killer = "-";
        String reason = "-";
        if (mutant.edited != null && isAccepted(mutant)) {
            Map<String, byte[]> files = runs.with(mutant.owner, mutant.edited, probes);
            int line = probes.number(mutant.owner, mutant.line);
            state = null;
            for (int at = 0; at < tests.size(); at++) {
                boolean covers = reached.get(at).get(line);
                if (covers) {
                    covering.add(tests.get(at).id());
                }
                String failure = killer.equals("-") && (covers || !COVERING)
                        ? runs.failure(files, tests.get(at), limits.get(at)) : null;
                if (failure != null) {
                    killer = tests.get(at).id();
                    reason = failure;
                    state = Probe.isExceeded() ? "TIMED_OUT" : "KILLED";
                    if (!covers) {
                        System.err.println("a test that does not reach the line detects: " + mutant.id + " " + killer);
                        isWhole = false;
                    }
                }
            }
            if (state == null) {
                state = covering.isEmpty() ? "NO_COVERAGE" : "SURVIVED";
            }
        }
        counts.merge(state, 1, Integer::sum);
        System.out.println(String.join("\t", mutant.id, state, killer, covering.isEmpty() ? "-" : String.join(" ", covering), reason));
    }

    /** Whether the JVM's verifier accepts the edited class; it is linked here, and not begun. */
    private boolean isAccepted(Mutant mutant) throws Exception {
        Map<String, byte[]> files = new TreeMap<>(program.classes);
        files.putAll(program.tests);
        files.put(mutant.owner, mutant.edited);
        try {
            new Runs.Loader(files).loadClass(mutant.owner.replace('/', '.')).getDeclaredMethods();
            return true;
        } catch (VerifyError | ClassFormatError refused) {
            return false;
        }
    }
}
