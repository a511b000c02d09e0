#!/bin/sh
# Draws per second at the claim table, by 1, 2 and 4 threads, beside a plain atomic fetch_add in C.
# Words: the number of draws, 20000000 where none is given. It needs `rt` and `cc`.
set -eu
here=$(cd "$(dirname "$0")" && pwd)
draws=${1:-20000000}
work=$(mktemp -d)
trap 'rm -rf "$work"' EXIT
cc -O2 -pthread -o "$work/fetch_add" "$here/fetch_add.c"
cd "$here/../crates/bench_claims"
rt run > "$work/log" 2>&1 || { cat "$work/log"; exit 1; }
printf 'threads   claims/s  fetch_add/s  ratio\n'
for threads in 1 2 4; do
    ours=$(out/bench_claims "$threads" "$draws")
    plain=$("$work/fetch_add" "$threads" "$draws")
    awk -v t="$threads" -v n="$draws" -v a="$ours" -v b="$plain" \
        'BEGIN { printf "%7d  %9.0f  %11.0f  %5.2f\n", t, n / a * 1e9, n / b * 1e9, b / a }'
done
