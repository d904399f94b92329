#!/bin/sh
# Measures a holding of the turn beside a lock of std's Mutex, in one run: holdings that work for about
# 0, 1 and 10 microseconds, at 1, 2, 4 and 8 threads.
# The word is the number of holdings of 0 microseconds in a row (rows with work have fewer); 60,000 if it
# is left out. The times are nanoseconds, the median and the least of five. Other programs disturb them.
# It builds crates/bench_turn first, which proves it where nothing is kept.
set -e
cd "$(dirname "$0")/../../crates/bench_turn"
rt run >/dev/null 2>&1 || { echo "bench_turn doesn't build: run 'rt run' in crates/bench_turn" >&2; exit 1; }
exec ./out/bench_turn "${1:-60000}"
