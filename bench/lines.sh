#!/bin/sh
# Lines per second and peak memory over scripts of 1, 4 and 16 MB of lines `3 + 4 * 5`; beside them `bc` on the same
# sums where it is installed. No part of the gate.
cd "$(dirname "$0")/.." || exit 1
./jconsole < /dev/null || exit 1
work=$(mktemp -d) && trap 'rm -rf "$work"' EXIT
for megabytes in 1 4 16; do
    lines=$((megabytes * 1024 * 1024 / 10))
    yes '3 + 4 * 5' | head -n "$lines" > "$work/script"
    /usr/bin/time -f '%e %M' -o "$work/time" crates/jconsole/out/jconsole < "$work/script" > "$work/out"
    read -r seconds kilobytes < "$work/time"
    awk -v mb="$megabytes" -v n="$lines" -v s="$seconds" -v k="$kilobytes" \
        'BEGIN { printf "jconsole %2d MB: %d lines in %.2f s, %.0f lines per second, peak %d KB\n", mb, n, s, n / s, k }'
    if command -v bc > /dev/null 2>&1; then
        /usr/bin/time -f '%e %M' -o "$work/time" bc < "$work/script" > "$work/out"
        read -r seconds kilobytes < "$work/time"
        awk -v mb="$megabytes" -v n="$lines" -v s="$seconds" -v k="$kilobytes" \
            'BEGIN { printf "bc       %2d MB: %d lines in %.2f s, %.0f lines per second, peak %d KB\n", mb, n, s, n / s, k }'
    fi
done
