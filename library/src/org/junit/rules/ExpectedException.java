package org.junit.rules;

import org.hamcrest.Matcher;

/** The rule that expects an exception. tools/prepare puts its question around each test: what was caught, or that it ended. */
public class ExpectedException {
    private Class<?> kind;
    private String part;
    private Matcher<?> matcher;
    private Matcher<?> ofMessage;
    private Matcher<?> ofCause;

    private ExpectedException() {
    }

    public static ExpectedException none() {
        return new ExpectedException();
    }

    public void expect(Class<?> of) {
        kind = of;
    }

    public void expect(Matcher<?> by) {
        matcher = by;
    }

    public void expectMessage(String of) {
        part = of;
    }

    public void expectMessage(Matcher<String> by) {
        ofMessage = by;
    }

    public void expectCause(Matcher<?> by) {
        ofCause = by;
    }

    public boolean isAnyExceptionExpected() {
        return kind != null || part != null || matcher != null || ofMessage != null || ofCause != null;
    }

    public void ended() {
        if (isAnyExceptionExpected()) {
            throw new AssertionError("Expected test to throw an exception", null);
        }
    }

    public void caught(Throwable thrown) throws Throwable {
        if (!isAnyExceptionExpected()) {
            throw thrown;
        }
        String message = thrown.getMessage();
        boolean isLike = (kind == null || kind.isInstance(thrown))
            && (part == null || message != null && message.contains(part))
            && (matcher == null || matcher.matches(thrown)) && (ofMessage == null || ofMessage.matches(message))
            && (ofCause == null || ofCause.matches(thrown.getCause()));
        if (!isLike) {
            throw new AssertionError("Expected another exception", thrown);
        }
    }
}
