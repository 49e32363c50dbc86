#!/usr/bin/env bash
# Compares `markov` with 1, 2, 4 and 64 workers, side by side in one run: each number of workers five times in turn on the same file, and
# the best time counts, start of the process included. The files are made models, which are made here, one row of 512 columns and two of
# 300, whose phases have no pair to share, or one, and the lattices of bench/long, whose moves have a hundred columns and more. For each a
# line has the seconds, and the ratios to those of one worker. The answers are compared: they are the same whatever the number of workers.
# Usage: bench/workers.sh MARKOV [MODEL or ROWS:COLUMNS or FILE.lat ..]

[ $# -ge 1 ] && [ -f "$1" ] || { echo "usage: $0 MARKOV [MODEL or ROWS:COLUMNS or FILE.lat ..]" >&2; exit 2; }
markov=$(realpath "$1")
shift
bench=$(realpath "$(dirname "$0")")
names=()
for name in ${*:-3x3x3 6x6 8x8 3x3x4 1:512 2:300 "$bench"/long/*.lat}; do
    case $name in
    *.lat) names+=("$(realpath "$name")") ;;
    *) names+=("$name") ;;
    esac
done
. "$bench/lattice.sh"
work=$(mktemp -d) || exit 2
trap 'rm -rf "$work"' EXIT
cd "$work" || exit 2
export LC_ALL=C

# Runs so many workers on the project P: the microseconds that they took.
timed() {
    local begin=${EPOCHREALTIME/./}
    "$markov" --budget 100000000 --workers "$1" P >/dev/null 2>&1 || { echo "status $? with $1 workers" >&2; return 1; }
    echo $((${EPOCHREALTIME/./} - begin))
}

failed=0
for name in "${names[@]}"; do
    case $name in
    *.lat) cp "$name" P.lat ;;
    *:*) plain_rows "${name%:*}" "${name#*:}" >P.lat ;;
    *) lattice "$name" >P.lat ;;
    esac
    rm -f times answer
    for round in 1 2 3 4 5; do
        line=
        for workers in 1 2 4 64; do
            took=$(timed $workers) || exit 1
            line="$line $took"
            [ -f answer ] || cp P.mar answer
            cmp -s P.mar answer || { echo "$name: another answer with $workers workers" >&2; failed=1; }
        done
        echo "$line" >>times
    done
    awk -v name="$(basename "$name" .lat)" '
        NR == 1 { for (k = 1; k <= NF; k++) best[k] = $k }
        { for (k = 1; k <= NF; k++) if ($k < best[k]) best[k] = $k }
        END {
            printf "%-10s 1 worker %.3f s, 2 workers %.3f s (%.2f), 4 workers %.3f s (%.2f), 64 workers %.3f s (%.2f)\n", name, best[1] / 1e6,
                best[2] / 1e6, best[2] / best[1], best[3] / 1e6, best[3] / best[1], best[4] / 1e6, best[4] / best[1]
        }' times
done
exit $failed
