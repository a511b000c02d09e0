package shop;

import org.junit.jupiter.api.AfterAll;
import org.junit.jupiter.api.AfterEach;
import org.junit.jupiter.api.BeforeEach;
import org.junit.jupiter.api.Disabled;
import org.junit.jupiter.api.DisplayName;
import org.junit.jupiter.api.Test;

class CartTest extends CartBase {
    @BeforeEach
    void add() {
        Log.say("CartTest.add");
    }

    @Test
    @DisplayName("the sum of all")
    void total() {
        Log.say("CartTest.total");
    }

    @Override
    void redeclared() {
        Log.say("CartTest.redeclared");
    }

    @Disabled
    @Test
    void later() {
        Log.say("CartTest.later");
    }

    @AfterEach
    void clear() {
        Log.say("CartTest.clear");
    }

    @AfterAll
    static void close() {
        Log.say("CartTest.close");
    }
}
