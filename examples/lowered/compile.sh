#!/usr/bin/env bash
# Makes classes/ and tests/ anew from the sources, by a JDK from 9 to 22 and the jars of JUnit 4 and 5, which stand in JUNIT (Debian's junit4 and junit5
# have them where they are looked for).
set -e
cd "$(dirname "$0")"
java=/usr/share/java
JUNIT=${JUNIT:-$java/junit4.jar:$java/junit-jupiter-api.jar:$java/apiguardian-api.jar:$java/opentest4j.jar:$java/junit-platform-commons.jar}
rm -rf classes tests
javac --release 8 -Xlint:-options -nowarn -g:lines -d classes src/depot/*.java
javac --release 8 -Xlint:-options -nowarn -g:lines -cp "classes:$JUNIT" -d tests test/depot/*.java
