package shop;

import org.junit.After;
import org.junit.Before;
import org.junit.BeforeClass;
import org.junit.Test;

public abstract class CartBase {
    @BeforeClass
    public static void open() {
        Log.say("CartBase.open");
    }

    @Before
    public void fill() {
        Log.say("CartBase.fill");
    }

    @After
    public void empty() {
        Log.say("CartBase.empty");
    }

    @Test
    public void starts() {
        Log.say("CartBase.starts");
    }

    // A lower class declares it again, with the annotation. JUnit 4 takes this method for a test also
    // where the lower one has none, and then calls the lower one.
    @Test
    public void redeclared() {
        Log.say("CartBase.redeclared");
    }
}
