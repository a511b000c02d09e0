package forms;

/** An interface with floats, which a lambda can be. */
public interface Shape {
    double area();

    default double twice() {
        return area() * 2;
    }
}
