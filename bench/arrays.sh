#!/bin/sh
# Nanoseconds an atom of verbs on whole arrays, least of five runs: scripts that give the value of a verb on a list of
# 1,000,000 integers (on a table of 1,000 by 1,000) to a name again and again, less the time of the same scripts with a
# verb in its place that hands an argument on. Beside each the same by NumPy, where python3 has it.
# No part of the gate.
cd "$(dirname "$0")/.." || exit 1
./jconsole < /dev/null || exit 1
work=$(mktemp -d) && trap 'rm -rf "$work"' EXIT
atoms=1000000 rounds=20

# seconds TEXT: a script that gives this text's value again and again
seconds() {
    { printf 'n =: %d\na =: 9 | i. n\nk =: n $ 1 0\np =: |. i. n\nt =: 1000 1000 $ a\ns =: i. n\nc =: n $ 3\n' "$atoms"
      awk -v n="$rounds" -v text="$1" 'BEGIN { for (i = 0; i < n; i++) print "b =: " text }'; } > "$work/script"
    /usr/bin/time -f '%e' -o "$work/time" crates/jconsole/out/jconsole < "$work/script" > /dev/null
    tail -n 1 "$work/time"
}

cat > "$work/loop.py" <<'P'
import sys, time
import numpy
n, rounds, verb = int(sys.argv[1]), int(sys.argv[2]), sys.argv[3]
a = numpy.arange(n, dtype=numpy.int64) % 9
k = numpy.resize(numpy.array([1, 0]), n)
p = numpy.arange(n, dtype=numpy.int64)[::-1].copy()
t = a.reshape(1000, 1000)
s = numpy.arange(n, dtype=numpy.int64)
c = numpy.full(n, 3, dtype=numpy.int64)
apply = {
    'i.': lambda: numpy.arange(n, dtype=numpy.int64),
    ',': lambda: numpy.concatenate((a, a)),
    '|.': lambda: a[::-1].copy(),
    '{.': lambda: a[:500000].copy(),
    '#': lambda: numpy.repeat(a, k),
    '{': lambda: numpy.take(a, p),
    '|:': lambda: numpy.ascontiguousarray(t.T),
    '/:': lambda: numpy.argsort(p, kind='stable'),
    '/: of equal': lambda: numpy.argsort(a, kind='stable'),
    '/: of sorted': lambda: numpy.argsort(s, kind='stable'),
    'x /: y': lambda: numpy.take(a, numpy.argsort(p, kind='stable')),
    '/:~': lambda: numpy.sort(p, kind='stable'),
    'I.': lambda: numpy.searchsorted(s, a),
    '~.': lambda: numpy.unique(a),
    '~. of different': lambda: numpy.unique(p),
    '~. of sorted': lambda: numpy.unique(s),
    'x i. y': lambda: numpy.searchsorted(s, p),
    '+/': lambda: a.sum(),
    '>./': lambda: a.max(),
    '(+/ % #)': lambda: c.sum() // c.size,
    '+/"1': lambda: t.sum(axis=1),
    '*:@i.': lambda: numpy.square(numpy.arange(n, dtype=numpy.int64)),
}[verb]
start = time.perf_counter()
for _ in range(rounds):
    b = apply()
print('%.4f' % (time.perf_counter() - start))
P

# least COMMAND..: the least of five
least() { for _ in 1 2 3 4 5; do "$@" 2> /dev/null; done | sort -n | head -n 1; }

# row VERB TEXT BASE
row() {
    all=$(least seconds "$2") base=$(least seconds "$3")
    numpy=$(least python3 "$work/loop.py" "$atoms" "$rounds" "$1")
    awk -v text="$2" -v n="$atoms" -v r="$rounds" -v all="$all" -v base="$base" -v numpy="$numpy" 'BEGIN {
        printf "%-11s %7.2f ns an atom", text, (all - base) / n / r * 1e9
        if (numpy != "") printf ", NumPy %6.2f (%.1f times)", numpy / n / r * 1e9, (all - base) / numpy
        print "" }'
}

row 'i.' 'i. n' '] n'
row ',' 'a , a' 'a [ a'
row '|.' '|. a' '] a'
row '{.' '500000 {. a' '500000 ] a'
row '#' 'k # a' 'k ] a'
row '{' 'p { a' 'p ] a'
row '|:' '|: t' '] t'
row '/:' '/: p' '] p'
row '/: of equal' '/: a' '] a'
row '/: of sorted' '/: s' '] s'
row 'x /: y' 'a /: p' 'a ] p'
row '/:~' '/:~ p' '] p'
row 'I.' 's I. a' 's ] a'
row '~.' '~. a' '] a'
row '~. of different' '~. p' '] p'
row '~. of sorted' '~. s' '] s'
row 'x i. y' 's i. p' 's ] p'
row '+/' '+/ a' '] a'
row '>./' '>./ a' '] a'
row '(+/ % #)' '(+/ % #) c' '] c'
row '+/"1' '+/"1 t' '] t'
row '*:@i.' '*:@i. n' '] n'
