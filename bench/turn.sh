#!/usr/bin/env bash
# Turns per second of 1, 2 and 4 threads at one counter: by the ticket turn, by a fair ticket lock in Rust, and by std's Mutex.
# It needs `rustc`. Each line is the middle one of RUNS runs (5), of TURNS turns a thread (2000000), started and joined within the time.
set -eu
cd "$(dirname "$0")/.."
turns=${TURNS:-2000000}
runs=${RUNS:-5}
work=$(mktemp -d)
trap 'rm -rf "$work"' EXIT

(cd crates/turn_bench && rt run -- 1 1 >"$work/build.log" 2>&1) || { cat "$work/build.log"; exit 1; }
rustc -O -o "$work/mutex_counter" bench/mutex_counter.rs
rustc -O -o "$work/ticket_counter" bench/ticket_counter.rs

# middle COMMAND THREADS: the middle time in microseconds
middle() {
    for _ in $(seq "$runs"); do
        local begin=${EPOCHREALTIME/./}
        "$1" "$2" "$turns" >/dev/null
        echo $((${EPOCHREALTIME/./} - begin))
    done | sort -n | sed -n "$(((runs + 1) / 2))p"
}

# hundredths A B: how many times A is of B, with two digits
hundredths() {
    printf '%d.%02d' $(($1 / $2)) $(($1 * 100 / $2 % 100))
}

printf '%-8s %14s %14s %14s %10s %10s\n' threads 'turns/s turn' ticket Mutex 'to ticket' 'to Mutex'
for threads in 1 2 4; do
    turn=$(middle crates/turn_bench/out/turn_bench "$threads")
    ticket=$(middle "$work/ticket_counter" "$threads")
    mutex=$(middle "$work/mutex_counter" "$threads")
    all=$((threads * turns * 1000000))
    printf '%-8s %14s %14s %14s %10s %10s\n' "$threads" $((all / turn)) $((all / ticket)) $((all / mutex)) \
        "$(hundredths "$turn" "$ticket")" "$(hundredths "$turn" "$mutex")"
done
