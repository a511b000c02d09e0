package org.junit;

/** As that of JUnit 4, but for the bound of `expected`. */
public @interface Test {
    Class<?> expected();
}
