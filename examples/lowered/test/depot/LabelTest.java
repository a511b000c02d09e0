package depot;

import static org.junit.Assert.assertEquals;
import static org.junit.Assert.assertFalse;
import static org.junit.Assert.assertNotSame;
import static org.junit.Assert.assertSame;
import static org.junit.Assert.assertThrows;
import static org.junit.Assert.assertTrue;

import java.io.IOException;
import org.junit.Ignore;
import org.junit.Rule;
import org.junit.Test;
import org.junit.rules.ExpectedException;
import org.junit.runner.RunWith;
import org.junit.runners.JUnit4;

@RunWith(JUnit4.class)
public class LabelTest {
    @Rule
    public ExpectedException thrown = ExpectedException.none();

    @Test
    public void parses() throws IOException {
        assertEquals(new Label("bolt", 12), Label.parse("bolt:12"));
        assertEquals("one", new Label("bolt", 1), Label.parse("bolt"));
        assertEquals("bolt x12", Label.parse("bolt:12").shown());
    }

    @Test
    public void refuses() {
        IOException fault = assertThrows(IOException.class, () -> Label.parse("bolt:1x"));
        assertEquals("no number: bolt:1x", fault.getMessage());
    }

    @Test
    public void refusesByRule() throws IOException {
        thrown.expect(IOException.class);
        thrown.expectMessage("no number");
        Label.parse("bolt:?");
    }

    @Test
    public void kinds() {
        assertSame(Label.Kind.SMALL, new Label("bolt", 9).kind());
        assertSame(Label.Kind.LARGE, new Label("bolt", 10).kind());
    }

    @Test
    public void compares() {
        assertTrue("letters", new Label("a", 2).compareTo(new Label("B", 1)) < 0);
        assertTrue("counts", new Label("A", 2).compareTo(new Label("a", 1)) > 0);
        assertFalse(new Label("a", 1).equals("a"));
        assertEquals(new Label("Bolt", 3).hashCode(), new Label("bolt", 3).hashCode());
    }

    @Test
    public void waits() throws InterruptedException {
        Thread.sleep(1);
    }

    @Test
    public void failsAlways() {
        assertNotSame("the same", this, this);
    }

    @Test
    @Ignore("not yet")
    public void later() {
        assertTrue(false);
    }
}
