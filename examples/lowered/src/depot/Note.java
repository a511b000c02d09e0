package depot;

/** An annotation type. */
public @interface Note {
}
