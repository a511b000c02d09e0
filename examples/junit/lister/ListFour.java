import org.junit.runner.Description;
import org.junit.runner.JUnitCore;
import org.junit.runner.notification.RunListener;

/** Writes the tests that JUnit 4 runs in these classes, with what they call. */
public class ListFour {
    public static void main(String[] names) throws Exception {
        for (String name : names) {
            JUnitCore core = new JUnitCore();
            core.addListener(new RunListener() {
                @Override
                public void testStarted(Description test) {
                    System.out.println(test.getClassName() + "." + test.getMethodName());
                }
            });
            core.run(Class.forName(name));
        }
    }
}
