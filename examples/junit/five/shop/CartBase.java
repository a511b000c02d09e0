package shop;

import org.junit.jupiter.api.AfterEach;
import org.junit.jupiter.api.BeforeAll;
import org.junit.jupiter.api.BeforeEach;
import org.junit.jupiter.api.Test;

abstract class CartBase {
    @BeforeAll
    static void open() {
        Log.say("CartBase.open");
    }

    @BeforeEach
    void fill() {
        Log.say("CartBase.fill");
    }

    @AfterEach
    void empty() {
        Log.say("CartBase.empty");
    }

    @Test
    void starts() {
        Log.say("CartBase.starts");
    }

    // A lower class declares it again without an annotation.
    @Test
    void redeclared() {
        Log.say("CartBase.redeclared");
    }
}
