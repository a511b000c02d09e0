#!/bin/bash
# report.sh [PROGRAM] [CLASSES]: the memory of a report: of a suite of so many classes (4,063) of 64 mutants on one line, each
# with 16 tests that come to it, so 260,032 mutants with 4,160,512 covering pairs, as many as there may be. It prints how long
# the report and the new history are; what the heap holds when the report's text is whole, beside that text and the new
# history, which is what the report is made of; that and the text as a share of the text; the room that was taken for the text;
# and the most memory of the whole run, which the cells of the job take. It needs `cc` and python3.
set -eu
here=$(cd "$(dirname "$0")" && pwd)
program=$(readlink -f "${1:-$here/../mutest}")
count=${2:-4063}
work=$(mktemp -d)
trap 'rm -rf "$work"' EXIT
mkdir -p "$work/classes/gen" "$work/tests/gen"
{
    printf '%s\n' 'class gen/C0000 super java/lang/Object flags 33 major 52' 'method 9 f (I)I stack 2 locals 1' 'line 1' iload_0
    for _ in $(seq 63); do printf '%s\n' iconst_1 iadd; done
    printf '%s\n' ireturn end
} >"$work/class.txt"
{
    printf '%s\n' 'class gen/T0000 super java/lang/Object flags 33 major 52' 'method 1 <init> ()V stack 1 locals 1' aload_0 \
        'invokespecial java/lang/Object.<init> ()V' return
    for test in $(seq 16); do
        printf '%s\n' "method 1 t$test ()V stack 4 locals 1" 'ldc2_w 66' iconst_3 'invokestatic gen/C0000.f (I)I' i2l \
            'invokestatic org/junit/Assert.assertEquals (JJ)V' return 'note Lorg/junit/Test;'
    done
    echo end
} >"$work/test.txt"
"$program" asm "$work/class.txt" --out "$work/class"
"$program" asm "$work/test.txt" --out "$work/test"
python3 - "$work" "$count" <<'PYTHON'
import sys

work, count = sys.argv[1], int(sys.argv[2])
for made, path in ('class', 'classes/gen/C%04d.class'), ('test', 'tests/gen/T%04d.class'):
    with open(f'{work}/{made}', 'rb') as file:
        data = file.read()
    for number in range(count):
        with open(f'{work}/{path % number}', 'wb') as file:
            file.write(data.replace(b'gen/C0000', b'gen/C%04d' % number).replace(b'gen/T0000', b'gen/T%04d' % number))
PYTHON
cc -O2 -shared -fPIC -o "$work/live_heap.so" "$here/live_heap.c"
LD_PRELOAD="$work/live_heap.so" "$program" run --classes "$work/classes" --tests "$work/tests" --report "$work/report.json" \
    --new-history "$work/history" 9>"$work/heap"
text=$(stat -c %s "$work/report.json")
awk -v text="$text" -v history="$(stat -c %s "$work/history")" '
    $1 >= text { room = $1; live = $2 }
    { most = $3 }
    END {
        made = live - room - history
        printf "report %.1f MB, new history %.1f MB; beside them %.1f MB, with the text %.2f times the text, of which %.2f are room; at most in all %.1f MB\n",
            text / 1e6, history / 1e6, made / 1e6, (made + text) / text, room / text, most / 1e6
    }' <(grep -v "^$(stat -c %s "$work/history") " "$work/heap" | tail -n 20)
