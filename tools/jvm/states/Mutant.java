package states;

/** A mutant of a class file: its identifier, the line of the replaced instruction, and the edited class file, or null where the edit has no layout. */
final class Mutant {
    final String id;
    final String owner;
    final int line;
    final byte[] edited;

    Mutant(String id, String owner, int line, byte[] edited) {
        this.id = id;
        this.owner = owner;
        this.line = line;
        this.edited = edited;
    }
}
