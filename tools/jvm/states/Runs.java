package states;

import java.util.HashMap;
import java.util.Map;
import org.junit.platform.engine.TestExecutionResult;
import org.junit.platform.engine.discovery.DiscoverySelectors;
import org.junit.platform.launcher.Launcher;
import org.junit.platform.launcher.LauncherDiscoveryRequest;
import org.junit.platform.launcher.TestExecutionListener;
import org.junit.platform.launcher.TestIdentifier;
import org.junit.platform.launcher.core.LauncherDiscoveryRequestBuilder;
import org.junit.platform.launcher.core.LauncherFactory;
import org.junit.runner.JUnitCore;
import org.junit.runner.Request;
import org.junit.runner.Result;

/** Runs one test by JUnit, each time with all classes of the program loaded anew. */
final class Runs {
    /** So deep a recursion ends as one of some thousand calls, and not by the steps. */
    private static final long STACK = 400_000;
    private static final long SECONDS = 30;

    /** The classes of a program, ahead of those that this tool itself has. */
    static final class Loader extends ClassLoader {
        private final Map<String, byte[]> files;

        Loader(Map<String, byte[]> files) {
            super(Loader.class.getClassLoader());
            this.files = files;
        }

        @Override
        protected Class<?> loadClass(String name, boolean resolve) throws ClassNotFoundException {
            byte[] file = files.get(name.replace('.', '/'));
            if (file == null) {
                return super.loadClass(name, resolve);
            }
            Class<?> loaded = findLoadedClass(name);
            return loaded == null ? defineClass(name, file, 0, file.length) : loaded;
        }
    }

    private final Launcher launcher = LauncherFactory.create();
    private final Map<String, byte[]> probed = new HashMap<>();

    Runs(Program program, Probes probes) {
        for (String name : program.names()) {
            probed.put(name, probes.into(program.file(name)));
        }
    }

    /** The original, with one class in its place where that isn't null. */
    Map<String, byte[]> with(String name, byte[] edited, Probes probes) {
        Map<String, byte[]> files = new HashMap<>(probed);
        if (edited != null) {
            files.put(name, probes.into(edited));
        }
        return files;
    }

    /**
     * Why the test fails within so many steps, which the probe counts: the class of what leaves it, `no exception` where it was to throw, or `-`
     * where it takes more steps; null where it passes.
     */
    String failure(Map<String, byte[]> files, Suite.Test test, long limit) throws InterruptedException {
        Throwable[] failed = {null};
        Throwable[] odd = {null};
        Probe.begin(limit);
        Thread thread = new Thread(null, () -> {
            Loader loader = new Loader(files);
            Thread.currentThread().setContextClassLoader(loader);
            try {
                Class<?> owner = loader.loadClass(test.owner.replace('/', '.'));
                failed[0] = test.isOfFive ? failureOfFive(owner, test.method) : failureOfFour(owner, test.method);
            } catch (Throwable thrown) {
                odd[0] = thrown;
            }
            Probe.end();
        }, "test", STACK);
        thread.setDaemon(true);
        thread.start();
        if (!Probe.awaitEnd(SECONDS)) {
            throw new IllegalStateException(test.id() + " waits outside of the program's code");
        }
        if (odd[0] != null && !(odd[0] instanceof StackOverflowError)) {
            throw new IllegalStateException(test.id(), odd[0]);
        }
        if (Probe.isExceeded()) {
            return "-";
        }
        Throwable thrown = odd[0] == null ? failed[0] : odd[0];
        return thrown == null ? null : reason(thrown);
    }

    /** JUnit 4 has its own exceptions where a test was to throw, and JUnit its own errors for assertions, which are AssertionErrors. */
    private static String reason(Throwable thrown) {
        StackTraceElement[] places = thrown.getStackTrace();
        if (places.length > 0 && places[0].getClassName().endsWith(".ExpectException")) {
            return thrown.getCause() == null ? "no exception" : reason(thrown.getCause());
        }
        Class<?> type = thrown.getClass();
        while (type.getName().startsWith("org.junit.") || type.getName().startsWith("org.opentest4j.")) {
            type = type.getSuperclass();
        }
        return type.getName();
    }

    private static Throwable failureOfFour(Class<?> owner, String method) {
        Result result = new JUnitCore().run(Request.method(owner, method));
        if (result.getRunCount() != 1 || result.getIgnoreCount() != 0) {
            throw new IllegalStateException("not run");
        }
        return result.wasSuccessful() ? null : result.getFailures().get(0).getException();
    }

    private Throwable failureOfFive(Class<?> owner, String method) {
        LauncherDiscoveryRequest request = LauncherDiscoveryRequestBuilder.request().selectors(DiscoverySelectors.selectMethod(owner, method)).build();
        int[] count = {0};
        Throwable[] failed = {null};
        launcher.execute(request, new TestExecutionListener() {
            @Override
            public void executionFinished(TestIdentifier test, TestExecutionResult result) {
                count[0] += test.isTest() ? 1 : 0;
                result.getThrowable().filter(thrown -> failed[0] == null).ifPresent(thrown -> failed[0] = thrown);
            }
        });
        if (count[0] != 1 && failed[0] == null) {
            throw new IllegalStateException("not run");
        }
        return failed[0];
    }
}
