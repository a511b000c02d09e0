package outside;

import org.junit.Test;
import org.junit.runner.RunWith;
import org.junit.runners.JUnit4;

/** A runner. */
@RunWith(JUnit4.class)
public class RunWithTest {
    @Test(timeout = 100)
    public void passes() {
    }
}
