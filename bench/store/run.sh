#!/usr/bin/env bash
# Put and get through Store over real files beside one write and one pread in C, in one run, with no wire between: 1,000,000
# keys with values of 100 bytes, and 100,000 with values of 4 KiB. The median of several rounds, and the least in brackets.
# It proves and builds crates/bench_store first, where that isn't done yet. Other programs disturb the times.
# usage: bench/store/run.sh [ROUNDS [KEYS VALUE_BYTES]..]
set -euo pipefail
export LC_ALL=C
cd "$(dirname "${BASH_SOURCE[0]}")/../.."
rounds=${1:-5} loads=("${@:2}")
[ ${#loads[@]} -gt 0 ] || loads=(1000000 100 100000 4096)

room=$(mktemp -d)
trap 'rm -rf "$room"' EXIT
program=$PWD/crates/bench_store/out/bench_store
(cd crates/bench_store && rt run) >"$room/log" 2>&1 || { cat "$room/log" >&2; exit 1; }
"${CC:-cc}" -O3 -march=x86-64-v2 -Wall -Wextra -o "$room/raw" bench/store/raw.c

# Runs one of the columns over so many keys and bytes, in a folder of its own.
run() {
    local folder=$room/files
    mkdir "$folder"
    case $1 in
        store) "$program" "$folder" "$2" "$3" 4294967295 ;;
        rolls) "$program" "$folder" "$2" "$3" ;;
        c) "$room/raw" "$folder/file" "$2" "$3" ;;
        c-crc) "$room/raw" "$folder/file" "$2" "$3" crc ;;
    esac
    rm -r "$folder"
}

# Adds a line of times for each column and round to a file, and compares what the calls came to.
measure() {
    local round column
    for ((round = 0; round < rounds; round++)); do
        for column in c store rolls c-crc; do
            run "$column" "$1" "$2" 2>"$room/err" >"$room/$column.out" || { cat "$room/err" >&2; exit 1; }
            sed "s/^/$column /" "$room/err" >>"$3"
            cmp "$room/c.out" "$room/$column.out"
        done
    done
}

# A table with a row for each call, a column for each program, and by how much of c's speed the store runs.
table() {
    awk '
    !($1 in is_column) { is_column[$1]; column[++columns] = $1 }
    !($2 in is_call) { is_call[$2]; call[++calls] = $2 }
    { at[$1, $2, ++count[$1, $2]] = $3 }
    function sorted(s, c,  i, j, t) {
        for (i = 1; i <= count[s, c]; i++)
            for (j = i; j > 1 && at[s, c, j] < at[s, c, j - 1]; j--) {
                t = at[s, c, j]; at[s, c, j] = at[s, c, j - 1]; at[s, c, j - 1] = t
            }
    }
    function median(s, c) { return at[s, c, int((count[s, c] + 1) / 2)] }
    END {
        printf "%-10s", ""
        for (i = 1; i <= columns; i++) printf " %15s", column[i]
        printf " %10s %12s\n", "c / store", "c-crc / store"
        for (k = 1; k <= calls; k++) {
            printf "%-10s", call[k]
            for (i = 1; i <= columns; i++) {
                sorted(column[i], call[k])
                printf " %15s", sprintf("%d (%d)", median(column[i], call[k]), at[column[i], call[k], 1])
            }
            printf " %10.2f %12.2f\n", median("c", call[k]) / median("store", call[k]),
                median("c-crc", call[k]) / median("store", call[k])
        }
    }' "$1"
}

cat <<END
nanoseconds of one call, $rounds rounds; keys of 16 bytes
store: one data file; rolls: files of 64 MiB, each synced when it is full
c: one write or one pread of the same bytes, at a place that is known; c-crc: the same with a checksum
END
for ((i = 0; i + 1 < ${#loads[@]}; i += 2)); do
    echo "${loads[i]} keys, values of ${loads[i + 1]} bytes"
    measure "${loads[i]}" "${loads[i + 1]}" "$room/times.$i"
    table "$room/times.$i"
done
