package shop;

import org.junit.Test;
import org.junit.runner.RunWith;
import org.junit.runners.JUnit4;

@RunWith(JUnit4.class)
public class RunsOtherwise {
    @Test
    public static void neg() {}
}
