package forms;

/** try-floats calls `bb` `aa`, which a class file may. */
public class Fields {
    public int aa = 1;
    public float bb = 2.5f;

    public float get() {
        return bb;
    }
}
