#!/usr/bin/env bash
# Nanoseconds a call on blocks of a yard of 64 and of 4,096 blocks, beside the like calls on Rust's Arc, on 1, 2 and 4 threads.
# It needs `rustc`. Each number is the middle one of RUNS runs (5) of CALLS calls a thread (5000000), less the time of a run without calls.
set -eu
cd "$(dirname "$0")/.."
calls=${CALLS:-5000000}
runs=${RUNS:-5}
work=$(mktemp -d)
trap 'rm -rf "$work"' EXIT

(cd crates/yard_bench && rt run -- take 1 1 1 >"$work/build.log" 2>&1) || { cat "$work/build.log"; exit 1; }
rustc -O -o "$work/arcs" bench/arcs.rs

# middle COMMAND WORDS.. CALLS: the middle time in microseconds
middle() {
    for _ in $(seq "$runs"); do
        local begin=${EPOCHREALTIME/./}
        "$@" >/dev/null
        echo $((${EPOCHREALTIME/./} - begin))
    done | sort -n | sed -n "$(((runs + 1) / 2))p"
}

# tenths COMMAND WORDS..: tenths of a nanosecond a call
tenths() {
    local all none
    all=$(middle "$@" "$calls")
    none=$(middle "$@" 0)
    echo $(((all - none) * 10000 / calls))
}

line() {
    local ours theirs
    ours=$(tenths crates/yard_bench/out/yard_bench "$1" "$3" "$6")
    theirs=$(tenths "$work/arcs" "$2" "$3")
    printf '%-16s %-18s %7s %7s %9s %9s %6s\n' "$4" "$5" "$3" "$6" "$((ours / 10)).$((ours % 10))" "$((theirs / 10)).$((theirs % 10))" "$((ours / theirs)).$(printf %02d $((ours * 100 / theirs % 100)))"
}

printf '%-16s %-18s %7s %7s %9s %9s %6s\n' yard Arc threads blocks 'ns yard' 'ns Arc' ratio
for threads in 1 2 4; do
    for blocks in 64 4096; do
        line take new "$threads" 'take, leave' 'new, drop' "$blocks"
        line share clone "$threads" 'share, leave' 'clone, drop' "$blocks"
        line sole get_mut "$threads" 'sole, a write' 'get_mut, a write' "$blocks"
    done
done
