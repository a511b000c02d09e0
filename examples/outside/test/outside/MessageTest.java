package outside;

import static org.junit.Assert.assertEquals;

import java.util.Collections;
import org.junit.FixMethodOrder;
import org.junit.Test;
import org.junit.runners.MethodSorters;

/** An assertion with a message, and an annotation that is passed over. */
@FixMethodOrder(MethodSorters.NAME_ASCENDING)
public class MessageTest {
    @Test
    public void hasNoNames() {
        assertEquals("no names", 0, Names.of(Collections.emptyMap()).size());
    }
}
