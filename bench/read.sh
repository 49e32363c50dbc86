#!/usr/bin/env bash
# Measures how fast the built program reads files of 1, 8 and 64 MiB: the MiB a second are the same at each size where
# the time is linear. Each time is the least of five runs.
# Usage: bench/read.sh PROGRAM

[ $# -eq 1 ] && [ -f "$1" ] && [ -x "$1" ] || { echo "usage: $0 PROGRAM" >&2; exit 2; }
program=$(realpath "$1")
work=$(mktemp -d) || exit 2
trap 'rm -rf "$work"' EXIT
cd "$work" || exit 2
export LC_ALL=C

# A table of so many rows of 512 columns, in nearly so many bytes. Each two entries are those given, which take their
# room by zeros in front.
table() {
    local bytes=$1 rows=$2 first=$3 second=$4
    local width=$(((bytes - 16) / (rows * 512) - 1))
    echo "$rows 512"
    printf "%0${width}d\n" $(yes "$first $second" | head -n $((rows * 256)))
}

# Times the program on P.lat, which must end with this status.
measure() {
    local kind=$1 status=$2 least=0 begin time got
    for _ in 1 2 3 4 5; do
        begin=${EPOCHREALTIME/./}
        "$program" P >out 2>err
        got=$?
        time=$((${EPOCHREALTIME/./} - begin))
        if [ $got -ne "$status" ]; then
            echo "$kind: status $got for $status: $(cat err)" >&2
            exit 1
        fi
        if [ $least -eq 0 ] || [ $time -lt $least ]; then least=$time; fi
    done
    awk -v kind="$kind" -v bytes="$(stat -c %s P.lat)" -v time=$least 'BEGIN {
        size = bytes / 1048576
        printf "%-36s %6.2f MiB %9.4f s %8.1f MiB/s\n", kind, size, time / 1e6, size / (time / 1e6)
    }'
}

echo '0 0' >P.lat
measure 'nearly no bytes' 0
for size in 1 8 64; do
    bytes=$((size * 1048576))
    table $bytes 1 1 -1 >P.lat
    measure 'one row, long entries' 0
    echo x >>P.lat
    measure 'the same, refused at its end' 2
    table $bytes $((size * 64)) 0 0 >P.lat
    measure "$((size * 64)) rows of zeros" 0
done
