#!/bin/sh
# Steps per second of the machine on five loops (bench/steps/Steps.java), beside the same class file on the JVM's plain
# interpreters in the same run: `java -Xint`, and `java -zero` where it is there (Debian's openjdk-17-jre-zero). `ratio` is
# our steps per second by theirs. Words: one or more programs `machine_answers`, as `rt ci` builds them
# (crates/machine_answers/out/machine_answers, where none is given), so that an older one can be measured in the same run.
# What a program takes to start is measured by a run of one step and taken off. Each time is the least of five. It needs
# `java` and `javac`.
set -eu
here=$(cd "$(dirname "$0")" && pwd)
[ $# -gt 0 ] || set -- "$here/../crates/machine_answers/out/machine_answers"
work=$(mktemp -d)
trap 'rm -rf "$work"' EXIT
javac --release 8 -nowarn -Xlint:-options -g:lines -d "$work/classes" "$here/steps/Steps.java" 2> /dev/null

now() { date +%s%N; }

# The least nanoseconds of five that a program takes for the tests of a file.
run() {
    least=
    for round in 1 2 3 4 5; do
        begun=$(now)
        "$1" "$work/classes" "$2" > "$work/told"
        took=$(($(now) - begun))
        [ -n "$least" ] && [ "$least" -le "$took" ] || least=$took
    done
    echo "$least"
}

# The least nanoseconds of five that a JVM tells of a loop; nothing where it can't be had.
run_java() {
    least=
    for round in 1 2 3 4 5; do
        java "-$1" -cp "$work/classes" Steps "$2" > "$work/theirs" 2> /dev/null || return 0
        took=$(cat "$work/theirs")
        [ -n "$least" ] && [ "$least" -le "$took" ] || least=$took
    done
    echo "$least"
}

printf '%-12s %-34s %12s %8s\n' loop interpreter steps/s ratio
for loop in count calls fields arrays exceptions; do
    echo "Steps $loop 1000000000 2000000000 1024" > "$work/whole"
    echo "Steps $loop 1 2000000000 1024" > "$work/one"
    ours=0
    for program in "$@"; do
        start=$(run "$program" "$work/one")
        took=$(($(run "$program" "$work/whole") - start))
        steps=$(awk '{ print $3 }' "$work/told")
        ours=$((steps * 1000 / (took / 1000000 + 1)))
        printf '%-12s %-34s %12d\n' "$loop" "$(echo "$program" | tail -c 34)" "$ours"
    done
    for kind in Xint zero; do
        took=$(run_java "$kind" "$loop")
        if [ -n "$took" ]; then
            theirs=$((steps * 1000 / (took / 1000000 + 1)))
            ratio=$(awk "BEGIN { printf \"%.3f\", $ours / $theirs }")
            printf '%-12s %-34s %12d %8s\n' "$loop" "java -$kind" "$theirs" "$ratio"
        fi
    done
done
