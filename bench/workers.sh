#!/bin/bash
# workers.sh [PROGRAM] [CLASSES] [ROUNDS]: the time of one run with 1, 2 and 4 workers on a made suite (300 classes; long tests
# of 100,000 rounds, so that one worker takes some 10 s), the least of three each; how often faster than one worker's it is, and
# by how much the processors' time exceeds one worker's: runs that one worker spares, and what sharing costs. Free processors
# are wanted. It needs `javac`.
set -eu
here=$(cd "$(dirname "$0")" && pwd)
program=${1:-$here/../mutest}
work=$(mktemp -d)
trap 'rm -rf "$work"' EXIT
"$here/suite.sh" "$work" "${2:-300}" "${3:-100000}"
TIMEFORMAT='%R %U %S'

# The milliseconds and those of the processors, of the least of three runs with so many workers.
time_with() {
    for round in 1 2 3; do
        { time "$program" run --classes "$work/classes" --tests "$work/tests" --report "$work/report.json" \
            --new-history "$work/history" --workers "$1" > "$work/told"; } 2>&1
    done | awk '{ took = 1000 * $1 } NR == 1 || took < least { least = took; busy = 1000 * ($2 + $3) } END { printf "%d %d\n", least, busy }'
}

read -r one busy_one < <(time_with 1)
echo "1 worker: $one ms, $(cat "$work/told")"
for workers in 2 4; do
    read -r took busy < <(time_with "$workers")
    awk -v n="$workers" -v a="$one" -v b="$took" -v c="$busy_one" -v d="$busy" \
        'BEGIN { printf "%d workers: %d ms, %.2f times as fast, processors %.1f per cent over one worker'"'"'s\n", n, b, a / b, 100 * (d - c) / c }'
done
