package ledger;

import static org.junit.jupiter.api.Assertions.assertEquals;
import static org.junit.jupiter.api.Assertions.assertFalse;
import static org.junit.jupiter.api.Assertions.assertTrue;
import static org.junit.jupiter.api.Assertions.fail;

import java.util.Iterator;
import java.util.NoSuchElementException;
import org.junit.jupiter.api.BeforeEach;
import org.junit.jupiter.api.Test;

class AccountTest {
    private Account account;

    @BeforeEach
    void open() {
        account = new Account("Ada", 5000);
        account.post(Kind.DEPOSIT, 10000);
    }

    @Test
    void keepsABalance() {
        account.post(Kind.WITHDRAWAL, 2500);
        assertEquals(7500, account.balance());
        assertEquals(2, account.size());
    }

    @Test
    void numbersItsEntries() {
        Entry second = account.post(Kind.WITHDRAWAL, 1);
        Entry third = account.post(Kind.DEPOSIT, 1);
        assertEquals("#002", second.label());
        assertTrue(second.isBefore(third));
        assertFalse(third.isBefore(second));
    }

    @Test
    void maySpendUpToTheLimit() {
        account.post(Kind.WITHDRAWAL, 15000);
        assertEquals(-5000, account.balance());
        try {
            account.post(Kind.WITHDRAWAL, 20);
            fail("past the limit");
        } catch (OverdrawnException refused) {
            assertEquals(20, refused.missing());
            assertEquals("Ada lacks 0.20", refused.getMessage());
        }
        assertEquals(2, account.size());
    }

    @Test
    void refusesNoAmount() {
        try {
            account.post(Kind.DEPOSIT, 0);
            fail("nothing");
        } catch (IllegalArgumentException refused) {
            assertEquals(1, account.size());
        }
    }

    @Test
    void bearsInterest() {
        account.close(25);
        assertEquals(10025, account.balance());
        assertEquals(2, account.size());
    }

    @Test
    void writesNoInterestOfNothing() {
        account.post(Kind.WITHDRAWAL, 9900);
        account.close(25);
        assertEquals(2, account.size());
    }

    @Test
    void costsAFeeWhereItIsOwed() {
        account.post(Kind.WITHDRAWAL, 12000);
        account.close(25);
        assertEquals(-2150, account.balance());
    }

    @Test
    void isWalkedFromTheNewest() {
        account.post(Kind.FEE, 3);
        StringBuilder walked = new StringBuilder();
        for (Entry entry : account) {
            walked.append(entry.number()).append(' ').append(entry.describe()).append(';');
        }
        assertEquals("2 fee -0.03;1 paid in 100.00;", walked.toString());
    }

    @Test
    void seesChangesWhileItIsWalked() {
        Iterator<Entry> walk = account.iterator();
        account.post(Kind.DEPOSIT, 1);
        try {
            walk.next();
            fail("changed");
        } catch (IllegalStateException refused) {
            assertTrue(walk.hasNext());
        }
    }

    @Test
    void endsAtTheOldest() {
        Iterator<Entry> walk = account.iterator();
        walk.next();
        try {
            walk.next();
            fail("at the end");
        } catch (NoSuchElementException refused) {
            assertFalse(walk.hasNext());
        }
    }

    @Test
    void knowsEachBalance() {
        account.post(Kind.WITHDRAWAL, 4000);
        account.post(Kind.DEPOSIT, 500);
        long[] history = account.history();
        assertEquals(3, history.length);
        assertEquals(10000, history[0]);
        assertEquals(6000, history[1]);
        assertEquals(6500, history[2]);
    }
}
