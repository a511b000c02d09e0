package outside;

import org.junit.AfterClass;
import org.junit.Before;
import org.junit.Ignore;
import org.junit.Test;

/** Methods that JUnit 4 doesn't call either. */
public class OddTest {
    private final int number;

    public OddTest(int number) {
        this.number = number;
    }

    @Test
    public void takes(int some) {
    }

    @Test
    public static void stands() {
    }

    @Before
    private void hides() {
    }

    @AfterClass
    public void ends() {
    }

    @Ignore
    @Test
    public int gives() {
        return number;
    }
}
