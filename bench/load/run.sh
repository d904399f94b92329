#!/usr/bin/env bash
# The recovery of a directory beside C that fills a hash table from the same files, in one run: from hints, and by a scan
# of the records. 1,000,000 keys of 16 bytes, values of 100 bytes. The median of several rounds, and the least in brackets.
# Then the memory that each keeps for a key. It proves and builds crates/bench_load first, where that isn't done yet.
# Other programs disturb the times.
# usage: bench/load/run.sh [ROUNDS [KEYS VALUE_BYTES]]
set -euo pipefail
export LC_ALL=C
cd "$(dirname "${BASH_SOURCE[0]}")/../.."
rounds=${1:-5} items=${2:-1000000} bytes=${3:-100}

room=$(mktemp -d)
trap 'rm -rf "$room"' EXIT
program=$PWD/crates/bench_load/out/bench_load
(cd crates/bench_load && rt run) >"$room/log" 2>&1 || { cat "$room/log" >&2; exit 1; }
"${CC:-cc}" -O3 -march=x86-64-v2 -Wall -Wextra -o "$room/raw" bench/load/raw.c
mkdir "$room/hints" "$room/scan" "$room/empty"
"$room/raw" make "$room/hints" "$items" "$bytes"
cp "$room"/hints/*.data "$room/scan"

# Runs one of the columns over a folder; a further word holds what was loaded.
run() {
    case $1 in
        load) exec "$program" "$2" ${3:+"$3"} ;;
        c) exec "$room/raw" "$(basename "$2")" "$2" ${3:+"$3"} ;;
    esac
}

# The resident memory in KiB of a load of the folder at rest, and the most that it was.
held() {
    local memory
    coproc HELD { run "$1" "$2" hold; }
    local program_id=$HELD_PID to=${HELD[1]}
    read -r _ <&"${HELD[0]}"
    memory=$(awk '/VmHWM/ { most = $2 } /VmRSS/ { now = $2 } END { print now, most }' "/proc/$program_id/status")
    exec {to}>&-
    wait "$program_id"
    echo "$memory"
}

# The middle one of the numbers on standard input, and the least.
median() { sort -n | awk '{ at[NR] = $1 } END { printf "%d (%d)\n", at[int((NR + 1) / 2)], at[1] }'; }

echo "$items keys of 16 bytes, values of $bytes bytes, $rounds rounds: nanoseconds of one key"
for folder in hints scan; do
    for ((round = 0; round < rounds; round++)); do
        for column in c load; do
            (run "$column" "$room/$folder") 2>>"$room/$folder.$column" >"$room/$column.out"
        done
        cmp "$room/c.out" "$room/load.out"
    done
    echo "$folder: c $(median <"$room/$folder.c"), load $(median <"$room/$folder.load")"
done
echo "bytes of memory for a key, at rest and at most"
for column in c load; do
    read -r none none_most < <(held "$column" "$room/empty")
    for folder in hints scan; do
        read -r now most < <(held "$column" "$room/$folder")
        echo "$folder: $column $(((now - none) * 1024 / items)), $(((most - none_most) * 1024 / items))"
    done
done
