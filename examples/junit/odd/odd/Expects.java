package odd;

import org.junit.Test;

public class Expects {
    @Test(expected = int.class)
    public void nothing() {}
}
