#!/bin/sh
# Wall time of `run` on a made suite of 50 classes and 50 classes of tests, beside a Java program that runs the same tests by
# reflection once for each of the same mutants, in one run: of each the least of three. `ratio` is their time by ours. Words:
# how many classes, 50 where none is given, and behind it programs, as `mutest` or one that the gate has built; `mutest` of
# this repository where none is given. So an older one can be measured in the same run. Then, of each, the time of 400 methods
# with 2,400 mutants in classes of 1, of 20 and of 400, and of a class of 800 methods, with one test. It needs `java`, `javac`
# and `python3`.
set -eu
here=$(cd "$(dirname "$0")" && pwd)
count=${1:-50}
[ $# -eq 0 ] || shift
[ $# -gt 0 ] || set -- "$here/../mutest"
work=$(mktemp -d)
trap 'rm -rf "$work"' EXIT
mkdir -p "$work/src/gen" "$work/test/gen"
number=0
while [ "$number" -lt "$count" ]; do
    cat > "$work/src/gen/C$number.java" <<JAVA
package gen;

public class C$number {
    public static boolean isBelow(int n) {
        if (n < 0) {
            return true;
        }
        return false;
    }

    public static boolean isBetween(int n, int low, int high) {
        if (n < low) {
            return false;
        }
        if (n > high) {
            return false;
        }
        return true;
    }
}
JAVA
    cat > "$work/test/gen/T$number.java" <<JAVA
package gen;

import static org.junit.Assert.assertFalse;
import static org.junit.Assert.assertTrue;

import org.junit.Test;

public class T$number {
    @Test
    public void below() {
        assertTrue(C$number.isBelow(-1));
    }

    @Test
    public void zero() {
        assertFalse(C$number.isBelow(0));
    }

    @Test
    public void middle() {
        assertTrue(C$number.isBetween($number + 1, $number, $number + 2));
    }

    @Test
    public void outside() {
        assertFalse(C$number.isBetween($number - 1, $number, $number + 2));
    }
}
JAVA
    number=$((number + 1))
done
javac --release 8 -nowarn -Xlint:-options -d "$work/runner" "$here"/../examples/below-zero/stubs/org/junit/*.java
javac -nowarn -d "$work/runner" "$here/MutantRuns.java"
javac --release 8 -Xlint:-options -g:lines -d "$work/classes" "$work"/src/gen/*.java
javac --release 8 -Xlint:-options -g:lines -cp "$work/classes:$work/runner" -d "$work/tests" "$work"/test/gen/*.java

# The least milliseconds of three runs of a command.
time_of() {
    least=
    for round in 1 2 3; do
        start=$(date +%s%N)
        "$@" > "$work/told"
        took=$((($(date +%s%N) - start) / 1000000))
        [ -n "$least" ] && [ "$least" -le "$took" ] || least=$took
    done
    echo "$least"
}

theirs=$(time_of java -cp "$work/runner" MutantRuns "$work/classes" "$work/tests")
echo "JVM, with its start: $theirs ms"
for program in "$@"; do
    ours=$(time_of "$program" run --classes "$work/classes" --tests "$work/tests" --report "$work/report.json" --new-history "$work/history")
    echo "$program: $ours ms, $(cat "$work/told")"
    awk -v a="$ours" -v b="$theirs" 'BEGIN { printf "ratio %.3f\n", b / a }'
done
for methods in 1 20 400 800; do
    python3 "$here/one_class.py" "$work/of$methods" "$methods" $((methods < 400 ? 400 / methods : 1))
    for program in "$@"; do
        ours=$(time_of "$program" run --classes "$work/of$methods/c" --tests "$work/of$methods/t" --report "$work/report.json" --new-history "$work/history")
        echo "$program: classes of $methods methods: $ours ms"
    done
done
