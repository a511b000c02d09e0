package shop;

import static org.junit.Assert.assertEquals;
import static org.junit.Assert.assertFalse;
import static org.junit.Assert.assertTrue;

import org.junit.Test;

public class ArticleTest {
    private final Article tea = new Article("T1", "tea", 350);

    @Test
    public void isKnownByItsCode() {
        Article other = new Article("T1", "green tea", 400);
        assertTrue(tea.equals(other));
        assertEquals(tea.hashCode(), other.hashCode());
        assertFalse(tea.equals(new Article("T2", "tea", 350)));
        assertFalse(tea.equals("T1"));
        assertFalse(tea.equals(null));
    }

    @Test
    public void isShownWithItsCode() {
        assertEquals("tea (T1)", tea.toString());
        assertEquals("T1", tea.code());
    }

    @Test(expected = IllegalArgumentException.class)
    public void needsACode() {
        new Article("", "nothing", 1);
    }

    @Test(expected = IllegalArgumentException.class)
    public void costsNoLessThanNothing() {
        new Article("X", "gift", -1);
    }
}
