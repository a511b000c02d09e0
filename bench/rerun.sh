#!/bin/bash
# rerun.sh [PROGRAM] [CLASSES] [ROUNDS]: what a first run on a made suite takes (300 classes; long tests of 100,000 rounds, so
# that it takes some 10 s), a run with its history where nothing changed, and one where a class of twenty changed: milliseconds
# of the processor, the least of three each, and their share of the first run's. Reading and starting are counted. It needs
# `javac`.
set -eu
here=$(cd "$(dirname "$0")" && pwd)
program=${1:-$here/../mutest}
count=${2:-300}
work=$(mktemp -d)
trap 'rm -rf "$work"' EXIT
"$here/suite.sh" "$work" "$count" "${3:-100000}"
TIMEFORMAT='%U %S'

# The least milliseconds of three runs with these words.
time_with() {
    for round in 1 2 3; do
        { time "$program" run --classes "$work/classes" --tests "$work/tests" --report "$work/report.json" "$@" > "$work/told"; } 2>&1
    done | awk '{ took = 1000 * ($1 + $2) } NR == 1 || took < least { least = took } END { printf "%d\n", least }'
}

tell() { # WHAT MILLISECONDS
    awk -v what="$1" -v a="$first" -v b="$2" 'BEGIN { printf "%s: %d ms, %.1f per cent\n", what, b, 100 * b / a }'
    cat "$work/told"
}

first=$(time_with --new-history "$work/history")
tell "a first run" "$first"
tell "nothing changed" "$(time_with --history "$work/history" --new-history "$work/next")"
number=0
while [ "$number" -lt "$count" ]; do
    sed -i 's/int sum = 0;/int sum = from - from;/' "$work/src/gen/C$number.java"
    number=$((number + 20))
done
javac --release 8 -Xlint:-options -g:lines -d "$work/classes" "$work"/src/gen/*.java
tell "a class of twenty changed" "$(time_with --history "$work/history" --new-history "$work/next")"
