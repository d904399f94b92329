#!/usr/bin/env bash
# The calls of a keydir beside those of the kit's HashMap, of an open addressing table in C and of Rust's own HashMap, in
# one run: the median of several rounds, and the least in brackets. Then the memory of each at rest, with the keys that
# were put once, and three layouts of a keydir in C.
# It proves and builds crates/bench_keydir first, where that isn't done yet. Other programs disturb the times.
# usage: bench/keydir/run.sh [KEYS [ROUNDS]]
set -euo pipefail
export LC_ALL=C
cd "$(dirname "${BASH_SOURCE[0]}")/../.."
items=${1:-1000000} rounds=${2:-5}

room=$(mktemp -d)
trap 'rm -rf "$room"' EXIT
program=$PWD/crates/bench_keydir/out/bench_keydir
(cd crates/bench_keydir && rt run) >"$room/log" 2>&1 || { cat "$room/log" >&2; exit 1; }
for name in table layouts; do
    "${CC:-cc}" -O3 -march=x86-64-v2 -Wall -Wextra -o "$room/$name" "bench/keydir/$name.c"
done
stores=(keydir map c)
if command -v rustc >"$room/log"; then
    rustc --edition 2021 -O -C target-cpu=x86-64-v2 -o "$room/std_map" bench/keydir/std_map.rs
    stores+=(rust rust-fold)
else
    echo "rustc isn't there, so Rust's own HashMap isn't measured"
fi

# Runs the program of a store over so many keys; a third word holds them.
run() {
    case $1 in
        keydir | map) exec "$program" "$2" "$1" ${3:+"$3"} ;;
        c) exec "$room/table" "$2" ${3:+"$3"} ;;
        rust | rust-fold) exec "$room/std_map" "$2" "$1" ${3:+"$3"} ;;
        *) exec "$room/layouts" "$2" "$1" ;;
    esac
}

# Adds a line of times for each store and round to a file, and compares what the calls came to.
measure() {
    local round store
    for ((round = 0; round < rounds; round++)); do
        for store in "${@:2}"; do
            (run "$store" "$items") 2>>"$1" | sed 's/^[^:]*: //' >"$room/$store.out"
            cmp "$room/$2.out" "$room/$store.out"
        done
    done
}

# The resident memory in KiB of a store that holds so many keys, and the most that it was.
held() {
    local memory
    coproc HELD { run "$1" "$2" hold; }
    local program_id=$HELD_PID to=${HELD[1]}
    read -r _ <&"${HELD[0]}"
    memory=$(awk '/VmHWM/ { most = $2 } /VmRSS/ { now = $2 } END { print now, most }' "/proc/$program_id/status")
    exec {to}>&-
    wait "$program_id"
    echo "$memory"
}

memory() {
    local store now most none none_most
    for store in "${stores[@]}"; do
        read -r none none_most < <(held "$store" 0)
        read -r now most < <(held "$store" "$items")
        echo "$store bytes-a-key $(((now - none) * 1024 / items))"
        echo "$store bytes-at-most $(((most - none_most) * 1024 / items))"
    done
}

# A table with a row for each call and a column for each store.
table() {
    awk '
    !($1 in is_store) { is_store[$1]; store[++stores] = $1 }
    !($2 in is_call) { is_call[$2]; call[++calls] = $2 }
    { at[$1, $2, ++count[$1, $2]] = $3 }
    function cell(s, c,  n, i, j, t) {
        n = count[s, c]
        for (i = 1; i <= n; i++)
            for (j = i; j > 1 && at[s, c, j] < at[s, c, j - 1]; j--) {
                t = at[s, c, j]; at[s, c, j] = at[s, c, j - 1]; at[s, c, j - 1] = t
            }
        return n == 1 ? at[s, c, 1] : sprintf("%d (%d)", at[s, c, int((n + 1) / 2)], at[s, c, 1])
    }
    END {
        printf "%-14s", ""
        for (i = 1; i <= stores; i++) printf " %17s", store[i]
        print ""
        for (k = 1; k <= calls; k++) {
            printf "%-14s", call[k]
            for (i = 1; i <= stores; i++) printf " %17s", cell(store[i], call[k])
            print ""
        }
    }' "$@"
}

cat <<END
$items keys of 16 bytes, $rounds rounds: nanoseconds of one call, microseconds of the sweep
keydir: bk_keydir; map: the kit's HashMap; c: an open addressing table with keys in place;
rust and rust-fold: Rust's HashMap with its own hasher and with one as quick as the kit's
get-waiting: a get that waits for the answer of the one before; bytes: resident, at rest and at most
END
measure "$room/times" "${stores[@]}"
memory >"$room/memory"
table "$room/times" "$room/memory"
echo "layouts in C: keys on the heap, keys in place, and a key in place beside its version"
measure "$room/layout_times" heap near entry
table "$room/layout_times"
