package shop;

import org.junit.jupiter.api.Disabled;
import org.junit.jupiter.api.Test;

@Disabled
class OldTest {
    @Test
    void gone() {
        Log.say("OldTest.gone");
    }
}
