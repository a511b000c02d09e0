/** Two constants. `values` and `valueOf` are on the line of the declaration, as javac makes them. */
enum Size { SMALL, LARGE }
