#!/bin/bash
# hostile.sh [PROGRAM] [FOLDER]: writes hostile class files and texts below a folder, lists each class with 2 s and 512 MB,
# assembles each text, and runs the classes below `c` with the tests below `t` beside it; prints the processor's time, the
# memory, the status and the last line. Where `rt run` has built bench_history, that reads, indexes and writes hostile
# histories of up to 512 MB each, with eight times the memory of the file. A case `colliding-..` is to be held against
# `ordinary-..`, which has as many names of the same length. With a folder of such cases as CASES, goes over those too. It needs `cc`.
here=$(cd "$(dirname "$0")" && pwd)
program=${1:-$here/../mutest}
folder=${2:-$(mktemp -d)}
cc -O2 -o "$folder/colliding" "$here/colliding.c"
python3 "$here/hostile.py" "$folder" "$folder/colliding"
worst=0
measure() { # NAME, WORDS..
    local name=$1
    shift
    local got
    got=$( (ulimit -v 524288; /usr/bin/time -o "$folder/time" -f '%U %M' timeout 2 "$program" "$@" > "$folder/said" 2> "$folder/told"; echo $?) 2> /dev/null)
    printf '%-4s %-24s status %-4s %6s s %8s KB  %s\n' "$1" "$name" "$got" $(tail -1 "$folder/time") "$(tail -q -n 1 "$folder/said" "$folder/told" | tail -1 | cut -c1-60)"
    case $got in 0 | 1 | 2 | 3 | 4 | 5 | 6 | 7 | 8 | 9 | 10 | 11 | 12 | 15) ;; *) worst=1 ;; esac
}
list_all() { # FOLDER
    for class in "$1"/*/A.class "$1"/*/?/A.class; do
        [ -f "$class" ] && measure "$(dirname "${class#"$1"/}")" list "$class"
    done
}
assemble_all() { # FOLDER
    for text in "$1"/*/A.txt; do
        [ -f "$text" ] && measure "$(dirname "${text#"$1"/}")" asm "$text" --out "$folder/assembled.class"
    done
}
run_all() { # FOLDER
    for one in "$1"/*; do
        [ -d "$one/c" ] && [ -d "$one/t" ] && measure "${one#"$1"/}" run --classes "$one/c" --tests "$one/t" --report "$folder/report.json" --new-history "$folder/history"
    done
}
read_histories() {
    local reader=$here/../crates/bench_history/out/bench_history file size got
    [ -x "$reader" ] || return 0
    for kind in counts small equal shared names prefixes entries; do
        file=$folder/$kind.history
        python3 "$here/histories.py" "$folder" "$kind"
        size=$(stat -c %s "$file")
        got=$( (ulimit -v $((size / 128 + 65536)); /usr/bin/time -o "$folder/time" -f '%U %M' "$reader" "$file" 50000 > "$folder/said" 2> "$folder/told"; echo $?) 2> /dev/null)
        printf '%-4s %-24s status %-4s %6s s %8s KB  %4d MB  %s\n' read "$kind" "$got" $(tail -1 "$folder/time") $((size / 1000000)) "$(tr '\n' ';' < "$folder/said" | cut -c1-150)"
        rm "$file"
        [ "$got" = 0 ] || worst=1
    done
}
for cases in "$folder" ${CASES:+"$CASES"}; do
    list_all "$cases"
    assemble_all "$cases"
    run_all "$cases"
done
read_histories
exit $worst
