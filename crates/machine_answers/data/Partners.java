// Classes that are changed behind those that use them: first all lines are compiled but those that
// end with `after`, then all but those that end with `before`. Absent is deleted then.
class Absent { // before
    static int field; // before
    static void call() {} // before
} // before

class Changed {
    static int gone; // before
    static void lost() {} // before
    static void turned() {} // before
    void turned() {} // after
    void fixed() {} // before
    static void fixed() {} // after
    int field; // before
    static int field; // after
}

class Emptied {} // before
abstract class Emptied {} // after

interface Promise {
    int kept();
    default int broken() { return 5; } // before
    int broken(); // after
}

class Kept implements Promise { // before
    public int kept() { return 1; } // before
} // before

interface First { // before
    default int name() { return 1; } // before
} // before

interface Second {
    default int name() { return 2; } // after
}

class Two implements First, Second {} // before
