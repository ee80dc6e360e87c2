#!/bin/sh
# Runs each example and each way in which a session ends through the built program, and compares what comes with what
# has to come. It prints nothing where all is as it has to be. No part of the gate.
cd "$(dirname "$0")/.." || exit 1
work=$(mktemp -d) && trap 'rm -rf "$work"' EXIT
failed=0

# ends NAME STATUS TEXT: the last session ended with this status and this line on standard error
ends() {
    [ "$status" = "$2" ] && [ "$(cat "$work/err")" = "$3" ] || {
        echo "$1: status $status, $(cat "$work/err")"
        failed=1
    }
}

for script in examples/*.ijs; do
    ./jconsole < "$script" > "$work/out" 2> "$work/err"; status=$?
    ends "$script" 0 ""
    cmp -s "$work/out" "${script%.ijs}.out" || { echo "$script: other prints"; failed=1; }
done
./jconsole --nothing < examples/first.ijs > "$work/out" 2> "$work/err"; status=$?
ends "a word" 1 "jconsole: usage"
for word in --help examples/first.ijs; do
    ./jconsole "$word" < /dev/null > "$work/out" 2> "$work/err"; status=$?
    grep -q '^./build ' "$work/err" && [ "$(tail -n 1 "$work/err")" = "jconsole: usage" ] && [ "$status" = 1 ] || { echo "$word: usage isn't told"; failed=1; }
done
./jconsole < / > "$work/out" 2> "$work/err"; status=$?
ends "a script that can't be read" 2 "jconsole: read fault"
./jconsole < examples/first.ijs 2> "$work/err" > /dev/full; status=$?
ends "a full disk" 3 "jconsole: write fault"
yes '3 + 4 * 5' | head -c 16000000 > "$work/script"
(ulimit -v 12000; exec ./jconsole < "$work/script" > "$work/out" 2> "$work/err"); status=$?
ends "little memory" 4 "jconsole: no memory"
head -c 16777217 /dev/zero | tr '\0' '\n' > "$work/script"
./jconsole < "$work/script" > "$work/out" 2> "$work/err"; status=$?
ends "one byte too many" 7 "jconsole: script too long"
exit $failed
