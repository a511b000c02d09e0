#!/usr/bin/env bash
# Makes classes/ and tests/ anew from the sources, by a JDK of version 9 or later and the jar of JUnit 4, which stands in JUNIT4 (Debian's junit4 has it
# where it is looked for).
set -e
cd "$(dirname "$0")"
JUNIT4=${JUNIT4:-/usr/share/java/junit4.jar}
rm -rf classes tests
javac --release 8 -Xlint:-options -g:lines -d classes src/outside/*.java
javac --release 11 -g:lines -d classes modern/outside/*.java
javac --release 8 -Xlint:-options -g:lines -cp "classes:$JUNIT4" -d tests test/outside/*.java
