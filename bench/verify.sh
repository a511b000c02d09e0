#!/bin/sh
# The class files of each jar or folder that is named (those of Debian's libcommons-cli-java, libcommons-io-java,
# libcommons-lang3-java and libguava-java where none is), verified as one program each: prints each class that isn't accepted,
# how many class files are in the profile, accepted and refused, and three times what reading, linking and verifying them takes.
# What a class file names and the program lacks, outside of the profile or of the JDK, is there by name, flags and what stands
# above it. The status is 1 where a class is refused or a file isn't read. It wants `rt`, `unzip` and a JDK; PROGRAM names a
# built program_answers, without which `rt run` makes one.
set -eu
here=$(cd "$(dirname "$0")" && pwd)
java=/usr/share/java
[ $# -gt 0 ] || set -- $java/commons-cli.jar $java/commons-io.jar $java/commons-lang3.jar $java/guava.jar
work=$(mktemp -d)
trap 'rm -rf "$work"' EXIT
program=${PROGRAM:-$here/../crates/program_answers/out/program_answers}
[ -n "${PROGRAM:-}" ] || (cd "$here/../crates/program_answers" && rt run -- data data/supers data/uses > "$work/log" 2>&1) || { cat "$work/log"; exit 2; }
javac -d "$work/jvm" "$here"/../tools/jvm/supers/*.java
status=0
for library in "$@"; do
    classes=$library
    if [ -f "$library" ]; then
        classes=$work/classes
        rm -rf "$classes"
        unzip -q "$library" '*.class' -x 'META-INF/*' -d "$classes" 2> "$work/log" || [ $? -eq 11 ] || { cat "$work/log"; exit 2; }
    fi
    java -cp "$work/jvm" supers.Main "$classes" > "$work/supers"
    echo "$(basename "$library" .jar):"
    "$program" "$classes" "$work/supers" /dev/null timed > "$work/said" || exit 2
    cat "$work/said"
    for _ in 2 3; do
        "$program" "$classes" "$work/supers" /dev/null timed | tail -1
    done
    grep -q ' 0 not read; [0-9]* accepted, 0 refused$' "$work/said" || status=1
done
exit "$status"
