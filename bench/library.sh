#!/bin/sh
# Steps that lists, maps and sets of 1,000 numbers take (bench/library/Lists.java), of the profile's own library and of the companion's, which
# tools/prepare puts in its place. A line an operation: steps an item, those of filling taken off what goes over all of it, and the second by the
# first. The status is 1 where one takes more than twice the steps. Words: a program `mutest`, that of dist/ where none is given. It needs `javac`
# and python3.
#
# How many steps an operation takes is told by how many rounds of a loop of three a test can take behind it before it is out of its 10,000,000.
set -eu
here=$(cd "$(dirname "$0")" && pwd)
program=${1:-$here/../dist/mutest-x86_64-linux}
work=$(mktemp -d)
trap 'rm -rf "$work"' EXIT
compile() {
    javac -J-XX:TieredStopAtLevel=1 -J-XX:+UseSerialGC --release 8 -nowarn -Xlint:-options -g:lines "$@"
}
mkdir "$work/profile" "$work/tests" "$work/companion"
cat > "$work/ListsTest.java" <<'TEST'
public class ListsTest {
    @org.junit.Test
    public void fills() {
        new Lists().fillList();
    }
}
TEST
compile -d "$work/profile" "$here/library/Lists.java"
compile -d "$work/tests" -cp "$work/profile" -sourcepath "$here/../library/check/java" "$work/ListsTest.java"
rm -r "$work/tests/org"
"$here/../tools/prepare" "$work/profile" "$work/tests" --out "$work/out" > /dev/null
cp -r "$work/out/tests/." "$work/out/classes/." "$work/companion"
rm "$work/companion/ListsTest.class"

# A line each: whose library, the operation, its items, and the most rounds behind it that are known.
for which in profile companion; do
    sed -n "s|^    public void \(.*\)() { // |$which \1 |p" "$here/library/Lists.java"
    echo "$which nothing 0"
done | sed 's/$/ 0/' > "$work/rounds"

# The most rounds of each, bit by bit: one that a test can take with the others stays.
bit=2097152
while [ $bit -ge 64 ]; do
    for which in profile companion; do
        awk -v which=$which -v bit=$bit '
            BEGIN {
                print "class Rounds super java/lang/Object flags 33 major 52\nmethod 1 <init> ()V stack 1 locals 1"
                print "aload_0\ninvokespecial java/lang/Object.<init> ()V\nreturn"
            }
            $1 == which {
                print "method 1 " $2 " ()V stack 2 locals 2\nnote Lorg/junit/Test;"
                if ($3) { print "new Lists\ndup\ninvokespecial Lists.<init> ()V\ninvokevirtual Lists." $2 " ()V" }
                print "ldc " $4 + bit "\nistore_1\nL:\nframe append int\niinc 1 -1\niload_1\nifgt L\nreturn"
            }
            END { print "end" }' "$work/rounds" > "$work/text"
        "$program" asm "$work/text" --out "$work/$which/Rounds.class"
        "$program" run --classes "$here/../library/nothing" --tests "$work/$which" --report "$work/report.json" --new-history "$work/history" | sed "s/^/$which /"
    done > "$work/ends"
    if grep -v ' Rounds\..* TimedOut$\| mutants 0 ' "$work/ends"; then exit 1; fi
    awk -v bit=$bit '
        FNR == NR { split($4, test, "."); long[$1, test[2]] = 1; next }
        { print $1, $2, $3, $4 + (($1, $2) in long ? 0 : bit) }' "$work/ends" "$work/rounds" > "$work/kept"
    mv "$work/kept" "$work/rounds"
    bit=$((bit / 2))
done

awk '
    { rounds[$1, $2] = $4; items[$2] = $3 }
    $1 == "profile" && $3 { names[++count] = $2 }
    function steps(which, name) { return 3 * (rounds[which, "nothing"] - rounds[which, name]) }
    function each(which, name) { return (steps(which, name) - (name ~ /^fill/ ? 0 : steps(which, "fill" substr(name, match(name, /[A-Z]/))))) / items[name] }
    END {
        printf "%-10s %12s %12s %8s\n", "operation", "profile", "companion", "ratio"
        for (at = 1; at <= count; at++) {
            ratio = each("companion", names[at]) / each("profile", names[at])
            printf "%-10s %12.1f %12.1f %8.2f\n", names[at], each("profile", names[at]), each("companion", names[at]), ratio
            over += ratio > 2
        }
        print over + 0 " of " count " take more than twice the steps"
        exit over > 0
    }' "$work/rounds"
