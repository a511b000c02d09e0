#!/usr/bin/env bash
# Makes classes/ and tests/ anew from the sources, by a JDK of version 9 or later.
set -e
cd "$(dirname "$0")"
stubs=$(mktemp -d)
trap 'rm -rf "$stubs"' EXIT
rm -rf classes tests
javac --release 8 -nowarn -Xlint:-options -d "$stubs" stubs/org/junit/*.java
javac --release 8 -Xlint:-options -g:lines -d classes src/frost/*.java
javac --release 8 -Xlint:-options -g:lines -cp "classes:$stubs" -d tests test/frost/*.java
