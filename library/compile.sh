#!/usr/bin/env bash
# compile.sh [--check]: makes classes/ anew from src/, and jvm-classes/, by a JDK from 9 to 22 and the jar of hamcrest, which stands in HAMCREST (Debian's
# libhamcrest-java has it where it is looked for). src/ has classes of Java by their own names, so it is compiled as Java 8 is: without modules.
# With --check nothing is written here: the status is 1 where other class files came out, which those of JDK 17 are not to be.
set -e
cd "$(dirname "$0")"
HAMCREST=${HAMCREST:-/usr/share/java/hamcrest.jar}
made=$(mktemp -d "$PWD/made.XXXXXX")
trap 'rm -rf "$made"' EXIT
compile() {
    javac -J-Xmx700m -J-XX:TieredStopAtLevel=1 -J-XX:+UseSerialGC --release 8 -Xlint:-options,-unchecked -g:none -nowarn -encoding UTF-8 "$@"
}
compile -d "$made/jvm-classes" $(find jvm -name '*.java')
compile -cp "$made/jvm-classes:$HAMCREST" -d "$made/classes" $(find src -name '*.java' | sort)
rm "$made/classes/java/util/Map.class"
if [ "$1" = --check ]; then
    diff -r classes "$made/classes" && diff -r jvm-classes "$made/jvm-classes"
else
    rm -rf classes jvm-classes
    mv "$made/classes" "$made/jvm-classes" .
fi
