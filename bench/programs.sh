#!/bin/bash
# programs.sh [PROGRAM] [FOLDER] [CASE..]: writes programs that are hostile to linking and to walks over supers below a folder, and runs each. It prints the status, the time (as the
# clock and the processor have it), the memory and the last line that was told. With CASES=DIR it runs those of that folder too (`DIR/CASE/c` and `DIR/CASE/t`). SECONDS_EACH (2, of the processor) and MEMORY (524288 KB) limit each run; the 64 MiB of the case `mutants` have twice the memory and twice the time.
here=$(cd "$(dirname "$0")" && pwd)
program=${1:-$here/../mutest}
folder=${2:-$(mktemp -d)}
shift $(($# < 2 ? $# : 2))
python3 "$here/programs.py" "$folder" "$@"
worst=0
measure() { # NAME FOLDER
    local got memory=${MEMORY:-524288} seconds=${SECONDS_EACH:-2}
    [ "$1" = mutants ] && memory=$((2 * memory)) seconds=$((2 * seconds))
    got=$( (ulimit -v "$memory"; ulimit -t "$seconds"; /usr/bin/time -o "$folder/time" -f '%e %U %M' "$program" run --classes "$2/c" --tests "$2/t" --report "$folder/report.json" --new-history "$folder/history" > "$folder/said" 2> "$folder/told"; echo $?) 2> /dev/null)
    printf '%-16s status %-4s %6s s %6s s %8s KB  %s\n' "$1" "$got" $(tail -1 "$folder/time") "$(tail -q -n 1 "$folder/said" "$folder/told" | tail -1 | cut -c1-60)"
    [ "$got" -lt 124 ] && [ "$got" -ne 14 ] || worst=1
}
for case in "$folder"/*/ ${CASES:+"$CASES"/*/}; do
    [ -d "$case/c" ] && [ -d "$case/t" ] && measure "$(basename "$case")" "$case"
done
exit $worst
