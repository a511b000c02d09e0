#!/bin/sh
# Over every class of the jars that are named (those of Debian's junit4, libasm-java, libcommons-lang3-java and libguava-java
# where none is): reads it, reads it and lists its mutants, reads and writes it and compares the bytes; then does the same with
# ASM's reader (into its tree of nodes) and writer. Each is run three times. Needs `rt`, `unzip`, a JDK and libasm-java.
set -eu
here=$(cd "$(dirname "$0")" && pwd)
java=/usr/share/java
[ $# -gt 0 ] || set -- $java/junit4.jar $java/asm.jar $java/asm-tree.jar $java/asm-analysis.jar $java/asm-commons.jar $java/asm-util.jar $java/commons-lang3.jar $java/guava.jar
work=$(mktemp -d)
trap 'rm -rf "$work"' EXIT
for jar in "$@"; do
    mkdir -p "$work/classes/$(basename "$jar" .jar)"
    unzip -q -o "$jar" '*.class' -d "$work/classes/$(basename "$jar" .jar)"
done
(cd "$here/../crates/bench_classes" && rt run > "$work/log" 2>&1) || { cat "$work/log"; exit 1; }
program=$here/../crates/bench_classes/out/bench_classes
asm=$java/asm.jar:$java/asm-tree.jar
javac -cp "$asm" -d "$work" "$here/AsmRead.java"
times_of() { # WHAT, WORDS..: the last line that it prints, and three times
    what=$1
    shift
    times=
    for _ in 1 2 3; do
        start=$(date +%s%N)
        "$@" > "$work/said"
        end=$(date +%s%N)
        times="$times $(((end - start) / 1000000))"
    done
    echo "$what:$times ms; $(tail -2 "$work/said" | tr '\n' ';')"
}
times_of "mutest, reading" "$program" "$work/classes" read
times_of "mutest, reading and listing" "$program" "$work/classes" list
times_of "mutest, reading and writing" "$program" "$work/classes" compare
times_of "ASM, reading, with the start of a JVM" java -cp "$work:$asm" AsmRead "$work/classes" read
times_of "ASM, reading and writing, with the start of a JVM" java -cp "$work:$asm" AsmRead "$work/classes" write
