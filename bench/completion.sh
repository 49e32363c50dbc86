#!/usr/bin/env bash
# Measures how fast one worker completes a basis: the first phase of the independence model of so many rows and columns,
# whose lattice is made here. Each line has the size, the moves, the pairs, the time, pairs a second and the time a pair;
# the time grows as the pairs do where the last column stays near the same.
# Usage: bench/completion.sh PROGRAM [SIZE ..], the program being crates/completion_bench/out/completion_bench

[ $# -ge 1 ] && [ -f "$1" ] && [ -x "$1" ] || { echo "usage: $0 PROGRAM [SIZE ..]" >&2; exit 2; }
program=$(realpath "$1")
shift
sizes=${*:-4 5 6 7 8}
. "$(dirname "$0")/lattice.sh"
work=$(mktemp -d) || exit 2
trap 'rm -rf "$work"' EXIT
cd "$work" || exit 2
export LC_ALL=C

for size in $sizes; do
    lattice "${size}x$size" >P.lat
    begin=${EPOCHREALTIME/./}
    said=$("$program") || { echo "size $size: status $?" >&2; exit 1; }
    time=$((${EPOCHREALTIME/./} - begin))
    awk -v size="$size" -v said="$said" -v time=$time 'BEGIN {
        split(said, word, " ")
        printf "%d by %d: moves %d, pairs %d, %.3f s, %.0f pairs/s, %.3f us a pair\n", size, size, word[2], word[4],
            time / 1e6, word[4] / (time / 1e6), time / word[4]
    }'
done
