package shop;

import org.junit.After;
import org.junit.AfterClass;
import org.junit.Before;
import org.junit.Ignore;
import org.junit.Test;

public class CartTest extends CartBase {
    @Before
    public void add() {
        Log.say("CartTest.add");
    }

    @Test(expected = IllegalStateException.class)
    public void refuses() {
        Log.say("CartTest.refuses");
        throw new IllegalStateException();
    }

    @Test(timeout = 60000)
    public void total() {
        Log.say("CartTest.total");
    }

    @Override
    @Test
    public void redeclared() {
        Log.say("CartTest.redeclared");
    }

    @Ignore
    @Test
    public void later() {
        Log.say("CartTest.later");
    }

    @After
    public void clear() {
        Log.say("CartTest.clear");
    }

    @AfterClass
    public static void close() {
        Log.say("CartTest.close");
    }
}
