#!/bin/sh
# suite.sh FOLDER CLASSES [ROUNDS]: makes a suite with long tests: CLASSES classes in FOLDER/classes, a test class for each in
# FOLDER/tests. Of its three tests the first is long, of ROUNDS rounds (4,000: some 50,000 steps). It needs `javac`.
set -eu
here=$(cd "$(dirname "$0")" && pwd)
folder=$1
count=$2
rounds=${3:-4000}
threes=$(((rounds + 2) / 3)) # of the numbers below `rounds`
sum=$((3 * threes * (threes - 1) / 2))
mkdir -p "$folder/src/gen" "$folder/test/gen"
number=0
while [ "$number" -lt "$count" ]; do
    cat > "$folder/src/gen/C$number.java" <<JAVA
package gen;

public class C$number {
    public static int sum(int from, int to) {
        int sum = 0;
        for (int at = from; at < to; at++) {
            if (at % 3 == 0) {
                sum += at;
            } else {
                sum -= $number;
            }
        }
        return sum;
    }

    public static boolean isBetween(int n, int low, int high) {
        return n >= low && n <= high;
    }
}
JAVA
    cat > "$folder/test/gen/T$number.java" <<JAVA
package gen;

import static org.junit.Assert.assertFalse;
import static org.junit.Assert.assertTrue;

import org.junit.Test;

public class T$number {
    @Test
    public void all() {
        assertTrue($sum - $((rounds - threes)) * $number == C$number.sum(0, $rounds));
    }

    @Test
    public void inside() {
        assertTrue(C$number.isBetween(5, 5, 7));
        assertFalse(C$number.isBetween(8, 5, 7));
    }

    @Test
    public void first() {
        assertTrue(3 - 4 * $number == C$number.sum(1, 6));
    }
}
JAVA
    number=$((number + 1))
done
mkdir -p "$folder/junit"
javac --release 8 -nowarn -Xlint:-options -d "$folder/junit" "$here"/../examples/below-zero/stubs/org/junit/*.java
javac --release 8 -Xlint:-options -g:lines -d "$folder/classes" "$folder"/src/gen/*.java
javac --release 8 -Xlint:-options -g:lines -cp "$folder/classes:$folder/junit" -d "$folder/tests" "$folder"/test/gen/*.java
