#!/bin/bash
# records.sh [PROGRAM]: what records cost, on the tests of a made suite of 300 classes (suite.sh): instructions of the
# processor, by callgrind, of a run with its record (`record` before a test's line) and of the same run without, and `ratio`,
# what the first takes by what the second takes; then how many records are made in a second of processor time, the least of
# three. Each test is run twice, and the second runs count: the first ones resolve and decode for both. Reading a test's line
# and telling how it ended counts in both, too. PROGRAM is a built machine_answers, as `rt ci` or `rt run` leaves it
# (crates/machine_answers/out/machine_answers). The status is 1 where the ratio is above 1.1. It needs `javac`, `valgrind`.
set -eu -o pipefail
here=$(cd "$(dirname "$0")" && pwd)
program=${1:-$here/../crates/machine_answers/out/machine_answers}
work=$(mktemp -d)
trap 'rm -rf "$work"' EXIT
"$here/suite.sh" "$work" 300
mkdir "$work/job"
mv "$work/classes" "$work/tests" "$work/job"

lines() { # BEFORE: the lines of all tests, with this before each
    for number in $(seq 0 299); do
        printf "$1gen/T$number %s 10000000 4194304 1024\n" all inside first
    done
}
for way in run record; do
    before=; [ "$way" = run ] || before='record '
    lines "$before" > "$work/$way.1"
    cat "$work/$way.1" "$work/$way.1" > "$work/$way.2"
    for _ in $(seq 20); do cat "$work/$way.1"; done > "$work/$way.20"
done

instructions() { # FILE
    valgrind --tool=callgrind --callgrind-out-file=/dev/null "$program" "$work/job" "$work/$1" 2>&1 > "$work/said" |
        awk '/Collected/ { print $NF }'
}
TIMEFORMAT='%3U %3S'
seconds() { # FILE: the least of three
    for _ in 1 2 3; do
        { time "$program" "$work/job" "$work/$1" > "$work/said"; } 2>&1
    done | awk '{ t = $1 + $2; if (NR == 1 || t < m) m = t } END { print m }'
}

run=$(($(instructions run.2) - $(instructions run.1)))
record=$(($(instructions record.2) - $(instructions record.1)))
echo "$(grep -c ' Passed ' "$work/said") of $(wc -l < "$work/record.1") tests pass"
once=$(seconds record.1)
often=$(seconds record.20)
awk -v r="$run" -v k="$record" -v t="$once" -v u="$often" 'BEGIN {
    printf "a run             %d instructions\na run and record  %d instructions\nratio             %.3f\n", r / 900, k / 900, k / r
    printf "records           %d a second, with their runs\n", 19 * 900 / (u - t)
    exit k > r * 1.1 }'
