#!/usr/bin/env bash
# Makes classes/ and tests/ anew from the sources, by a JDK of version 9 or later and the jars of JUnit 5, which stand in JUNIT5 (Debian's junit5 has them
# where they are looked for).
set -e
cd "$(dirname "$0")"
JUNIT5=${JUNIT5:-/usr/share/java/junit-jupiter-api.jar:/usr/share/java/apiguardian-api.jar:/usr/share/java/opentest4j.jar}
rm -rf classes tests
javac --release 8 -Xlint:-options -g:lines -d classes src/ledger/*.java
javac --release 8 -Xlint:-options -g:lines -cp "classes:$JUNIT5" -d tests test/ledger/*.java
