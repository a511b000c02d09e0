#!/bin/bash
# edits.sh [CLASS]: processor time to make the class of a mutant, linked and with its bytes, for all mutants of one class file: anew
# from the whole edited class (`before`), and by the parts that the edit makes anew (`now`), in one run, the best of three each.
# What reading the class and listing its mutants takes is taken off. `ratio` is that of `now` to `before`. Without a class file it
# writes and compiles one of some 100 KB (`large_class.py`), for which it needs `javac`. It needs `rt`; PROGRAM names a built
# bench_edits, without which `rt run` makes one.
set -eu -o pipefail
here=$(cd "$(dirname "$0")" && pwd)
crate=$here/../crates/bench_edits
work=$(mktemp -d)
trap 'rm -rf "$work" "$crate/A.class"' EXIT
program=${PROGRAM:-$crate/out/bench_edits}
if [ -z "${PROGRAM:-}" ]; then
    # `rt run` builds the program and runs it in the crate's folder
    cp "$crate/data/A.class" "$crate"
    (cd "$crate" && rt run > "$work/log" 2>&1) || { cat "$work/log"; exit 1; }
fi
class=${1:-$work/Large.class}
if [ $# -eq 0 ]; then
    python3 "$here/large_class.py" 95 > "$work/Large.java"
    javac --release 8 -Xlint:-options -g -d "$work" "$work/Large.java"
fi
TIMEFORMAT='%3U %3S'
best() { # WAY TIMES: the least processor time of three runs in microseconds; what was printed stands in $work/WAY
    for _ in 1 2 3; do
        { time "$program" "$class" "$1" "$2" > "$work/$1" 2> "$work/told"; } 2>&1 || { cat "$work/told" >&2; exit 1; }
    done | awk '{ t = ($1 + $2) * 1e6; if (NR == 1 || t < m) m = t } END { print m }'
}
read=$(best read 1)
before=$(best before 1)
now=$(best now 1)
cmp -s "$work/before" "$work/now" || { echo "both ways made other bytes:"; cat "$work/before" "$work/now"; exit 1; }
echo "$(basename "$class"), $(stat -c %s "$class") bytes: $(cat "$work/now")"
awk -v r="$read" -v b="$before" -v n="$now" '{ b = (b - r) / $1; n = (n - r) / $1; printf "before %.1f us a mutant\nnow    %.1f us a mutant\nratio  %.3f\n", b, n, n / b }' "$work/now"
