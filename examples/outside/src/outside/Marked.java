package outside;

/** An annotation type. */
public @interface Marked {
}
