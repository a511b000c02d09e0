#!/bin/bash
# history.sh [FOLDER]: writes histories below a folder by histories.py, and prints how many milliseconds it takes to read one,
# to index it, to find out what stands for a program (`looked out`), and to write it, and how many millionths of a second
# 50,000 look-ups with all matching and with none: of 50, 100 and 200 MB; and of 10,000 and 100,000 records, spread over so many tests that each has ten. The rate
# at which it is read and the memory stand before. Of the last two it prints how many instructions a look-up takes, too, and
# ends with status 1 where the two differ by more than a tenth. Hostile histories: hostile.sh. It needs `rt`, `python3`,
# `valgrind` and /usr/bin/time.
set -eu
here=$(cd "$(dirname "$0")" && pwd)
folder=${1:-$(mktemp -d)}
program=$here/../crates/bench_history/out/bench_history
(cd "$here/../crates/bench_history" && rt run > "$folder/log" 2>&1) || { cat "$folder/log"; exit 1; }
times() { # KIND
    /usr/bin/time -o "$folder/time" -f '%M' "$program" "$folder/$1.history" 50000 > "$folder/said"
    awk -v name="$1" -v size="$(stat -c %s "$folder/$1.history")" -v kb="$(tail -1 "$folder/time")" '
        /^read/ { rate = size / 1000 / ($(NF - 1) + 0.5) }
        { said = said "; " $0 }
        END { printf "%-22s %4d MB, %5d MB of memory, %4d MB/s%s\n", name, size / 1e6, kb / 1000, rate, said }' "$folder/said"
}
instructions() { # KIND, HOW OFTEN WITH ALL MATCHING, HOW OFTEN WITH NONE
    valgrind --tool=callgrind --callgrind-out-file=/dev/null "$program" "$folder/$1.history" 50000 "$2" "$3" 2>&1 > "$folder/said" | awk '/Collected/ { print $NF }'
}
for kind in runs-25000-1000-1400 runs-50000-1000-1400 runs-100000-1000-1400; do
    python3 "$here/histories.py" "$folder" "$kind"
    times "$kind"
    rm "$folder/$kind.history"
done
: > "$folder/each"
for kind in runs-10000-1000-64 runs-100000-10000-64; do
    python3 "$here/histories.py" "$folder" "$kind"
    times "$kind"
    once=$(instructions "$kind" 1 1)
    all=$(($(instructions "$kind" 2 1) - once))
    none=$(($(instructions "$kind" 1 2) - once))
    echo "$kind $((all / 500)) $((none / 500))" >> "$folder/each"
    rm "$folder/$kind.history"
done
awk '
    function apart(a, b) { return a > b * 1.1 || b > a * 1.1 }
    { printf "%-22s instructions a look-up: %.2f with all matching, %.2f with none\n", $1, $2 / 100, $3 / 100 }
    NR == 2 { worst = apart($2, all) || apart($3, none) }
    { all = $2; none = $3 }
    END { exit worst }' "$folder/each"
