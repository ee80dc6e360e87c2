#!/usr/bin/env bash
# Blocks and turns on 1, 2 and 4 threads beside Rust's, in less than three minutes once both programs are proved (rt check in crates/yard_bench and crates/turn_bench).
# It needs `rustc`, and a machine on which nothing else runs.
set -eu
cd "$(dirname "$0")"
CALLS=${CALLS:-2000000} RUNS=${RUNS:-5} bash yard.sh
TURNS=${TURNS:-500000} RUNS=${RUNS:-5} bash turn.sh
