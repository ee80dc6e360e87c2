#!/bin/sh
# Nanoseconds an atom of scalar verbs, least of five runs: scripts that name a list and give the value of a verb on it to
# another name again and again, less the time of the same scripts with a verb in its place that hands an argument on. Beside each dyad the same loop in C
# (gcc -O2), with its check for overflow, and NumPy, which has none, where python3 has it. On 32,000 atoms and on 10.
# No part of the gate.
cd "$(dirname "$0")/.." || exit 1
./jconsole < /dev/null || exit 1
work=$(mktemp -d) && trap 'rm -rf "$work"' EXIT

# seconds ATOMS ROUNDS TEXT: a script that gives this text's value again and again
seconds() {
    { printf 'a =: '; awk -v n="$1" 'BEGIN { for (i = 0; i < n; i++) printf "%d ", 1 + i % 9; print "" }'
      awk -v n="$2" -v text="$3" 'BEGIN { for (i = 0; i < n; i++) print "b =: " text }'; } > "$work/script"
    /usr/bin/time -f '%e' -o "$work/time" crates/jconsole/out/jconsole < "$work/script" > /dev/null
    cat "$work/time"
}

cat > "$work/loop.c" <<'C'
#include <stdio.h>
#include <stdlib.h>
#include <string.h>
#include <time.h>
#define LOOP(...) for (int r = 0; r < rounds; r++) { for (int i = 0; i < atoms; i++) { __VA_ARGS__ } sum += b[r % atoms]; }
int main(int count, char **words) {
    int atoms = atoi(words[1]), rounds = atoi(words[2]);
    long *a = malloc(atoms * sizeof(long)), *b = malloc(atoms * sizeof(long)), sum = 0;
    for (int i = 0; i < atoms; i++) a[i] = 1 + i % 9;
    long *volatile other = a, *c = other;
    clock_t start = clock();
    if (!strcmp(words[3], "+")) LOOP(if (__builtin_add_overflow(a[i], c[i], &b[i])) return 1;)
    else if (!strcmp(words[3], "-")) LOOP(if (__builtin_sub_overflow(a[i], c[i], &b[i])) return 1;)
    else if (!strcmp(words[3], "*")) LOOP(if (__builtin_mul_overflow(a[i], c[i], &b[i])) return 1;)
    else if (!strcmp(words[3], "<.")) LOOP(b[i] = a[i] < c[i] ? a[i] : c[i];)
    else if (!strcmp(words[3], "<")) LOOP(b[i] = a[i] < c[i];)
    else LOOP(long x = a[i], m = x == 0 ? c[i] : x == -1 ? 0 : c[i] % x; b[i] = m != 0 && (m < 0) != (x < 0) ? m + x : m;)
    fprintf(stderr, "%ld\n", sum);
    printf("%.3f\n", (double)(clock() - start) / CLOCKS_PER_SEC);
}
C
gcc -O2 -o "$work/loop" "$work/loop.c" || exit 1
cat > "$work/loop.py" <<'P'
import sys, time
import numpy
atoms, rounds, verb = int(sys.argv[1]), int(sys.argv[2]), sys.argv[3]
a = 1 + numpy.arange(atoms, dtype=numpy.int64) % 9
c = a.copy()
apply = {'+': numpy.add, '-': numpy.subtract, '*': numpy.multiply, '<.': numpy.minimum, '<': numpy.less, '|': lambda x, y: numpy.remainder(y, x)}[verb]
start = time.perf_counter()
for _ in range(rounds):
    apply(a, c)
print('%.3f' % (time.perf_counter() - start))
P

# least COMMAND..: the least of five
least() { for _ in 1 2 3 4 5; do "$@" 2> /dev/null; done | sort -n | head -n 1; }

# row NAME ATOMS ROUNDS TEXT BASE [VERB]
row() {
    base=$(least seconds "$2" "$3" "$5") all=$(least seconds "$2" "$3" "$4") c='' numpy=''
    if [ -n "$6" ]; then
        c=$(least "$work/loop" "$2" "$3" "$6")
        numpy=$(least python3 "$work/loop.py" "$2" "$3" "$6")
    fi
    awk -v name="$1" -v n="$2" -v r="$3" -v all="$all" -v base="$base" -v c="$c" -v numpy="$numpy" 'BEGIN {
        printf "%-4s on %5d: %6.2f ns an atom", name, n, (all - base) / n / r * 1e9
        if (c != "") printf ", C %6.2f (%.2f times)", c / n / r * 1e9, (all - base) / c
        if (numpy != "") printf ", NumPy %6.2f", numpy / n / r * 1e9
        print "" }'
}

for verb in + - '<.' '<' '*' '|'; do
    row "$verb" 32000 20000 "a $verb a" 'a [ a' "$verb"
done
for verb in - '*:' '>:'; do
    row "$verb y" 32000 20000 "$verb a" '] a'
done
for verb in + '*'; do
    row "$verb" 10 400000 "a $verb a" a "$verb"
done
