package ledger;

import static org.junit.jupiter.api.Assertions.assertEquals;

import org.junit.jupiter.api.BeforeEach;
import org.junit.jupiter.api.Disabled;
import org.junit.jupiter.api.Test;

class TellerTest {
    private Teller teller;

    @BeforeEach
    void open() {
        teller = new Teller(new Account("Bo", 0));
    }

    @Test
    void obeysOrders() {
        assertEquals("nothing yet", teller.obey("last"));
        assertEquals("#001", teller.obey("in 1200"));
        assertEquals("#002", teller.obey("out 0.5"));
        assertEquals("1,199.50", teller.obey("balance"));
        assertEquals("#002 paid out -0.50", teller.obey("last"));
        assertEquals("1,202.50", teller.obey("close 25"));
        assertEquals("#003 interest 3.00", teller.obey("last"));
        assertEquals(0, teller.refused());
    }

    @Test
    void doesNotLend() {
        assertEquals("refused: Bo lacks 2.00", teller.obey("out 2"));
        assertEquals("0.00", teller.obey("balance"));
        assertEquals(1, teller.refused());
    }

    @Test
    void knowsNoOtherWords() {
        assertEquals("? give", teller.obey("give 5"));
        assertEquals("no number", teller.obey("in five"));
        assertEquals("no number", teller.obey("close"));
    }

    @Test
    @Disabled("the teller knows no fees yet")
    void takesFees() {
        assertEquals("#001", teller.obey("fee 1"));
    }
}
