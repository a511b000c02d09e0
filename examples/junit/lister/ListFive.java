import org.junit.platform.engine.discovery.DiscoverySelectors;
import org.junit.platform.engine.support.descriptor.MethodSource;
import org.junit.platform.launcher.Launcher;
import org.junit.platform.launcher.TestExecutionListener;
import org.junit.platform.launcher.TestIdentifier;
import org.junit.platform.launcher.core.LauncherDiscoveryRequestBuilder;
import org.junit.platform.launcher.core.LauncherFactory;

/** Writes the tests that JUnit 5 runs in these classes, with what they call. */
public class ListFive {
    public static void main(String[] names) {
        for (String name : names) {
            Launcher launcher = LauncherFactory.create();
            launcher.execute(
                    LauncherDiscoveryRequestBuilder.request()
                            .selectors(DiscoverySelectors.selectClass(name))
                            .build(),
                    new TestExecutionListener() {
                        @Override
                        public void executionStarted(TestIdentifier test) {
                            if (test.isTest()) {
                                MethodSource source = (MethodSource) test.getSource().get();
                                System.out.println(
                                        source.getClassName() + "." + source.getMethodName());
                            }
                        }
                    });
        }
    }
}
