package shop;

import org.junit.Ignore;
import org.junit.Test;

@Ignore
public class OldTest {
    @Test
    public void gone() {
        Log.say("OldTest.gone");
    }
}
