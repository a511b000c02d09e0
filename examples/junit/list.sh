#!/bin/sh
# Compiles the projects without debug information, runs four/ and five/ by JUnit, and writes to
# four.txt and five.txt what JUnit runs: each test, and with two spaces before it each call. Wants a
# JDK and, in JARS, the jars of JUnit 4, hamcrest, and JUnit 5 with its launcher.
set -e
cd "$(dirname "$0")"
JARS=${JARS:-$(ls /usr/share/java/junit*.jar /usr/share/java/hamcrest*.jar /usr/share/java/opentest4j*.jar /usr/share/java/apiguardian*.jar | tr '\n' ':')}
out=$(mktemp -d)
for n in four five; do
    mkdir "$out/$n"
    javac --release 8 -g:none -Xlint:-options -cp "$JARS" -d "$out/$n" log/shop/*.java $n/shop/*.java
done
mkdir "$out/odd"
javac --release 8 -g:none -Xlint:-options -d "$out/odd" odd/stubs/org/junit/*.java odd/odd/*.java
javac -cp "$JARS" -d "$out" lister/*.java
java -cp "$JARS:$out:$out/four" ListFour shop.CartTest shop.OldTest >four.txt
java -cp "$JARS:$out:$out/five" ListFive shop.CartTest shop.OldTest >five.txt
echo "the class files are in $out"
