#!/usr/bin/env bash
# Compares `markov` with the 4ti2 package's on made models, side by side in one run: each of three programs runs five times in turn on
# the same file, and the best time counts, start of the process included. They are `markov` with one worker, `4ti2-markov -g saturation
# -p 64`, which does as `markov` does, and `4ti2-markov` as it is, which goes another way (project and lift). For each model a line
# has the seconds of the three, the ratio of the first to each of the others, and the peak memory of each; a second one the pairs by
# kind, as SOLVE_BENCH says them. Where 4ti2 is not installed (Debian has it as `4ti2`) nothing is compared, and the status is 0.
# Usage: bench/peers.sh MARKOV SOLVE_BENCH [MODEL ..]

[ $# -ge 2 ] && [ -f "$1" ] && [ -f "$2" ] || { echo "usage: $0 MARKOV SOLVE_BENCH [MODEL ..]" >&2; exit 2; }
markov=$(realpath "$1")
solve=$(realpath "$2")
shift 2
models=${*:-3x3x3 6x6 8x8 3x3x4}
command -v 4ti2-markov >/dev/null || { echo "4ti2-markov is not installed: nothing compared"; exit 0; }
. "$(dirname "$0")/lattice.sh"
work=$(mktemp -d) || exit 2
trap 'rm -rf "$work"' EXIT
cd "$work" || exit 2
export LC_ALL=C

# Runs a program on the project P: the microseconds that it took.
timed() {
    local begin=${EPOCHREALTIME/./}
    "$@" P >/dev/null 2>&1 || { echo "status $? of $1" >&2; return 1; }
    echo $((${EPOCHREALTIME/./} - begin))
}

# The most memory that a program held on the project P, in MB, where `time` is installed.
memory() {
    [ -x /usr/bin/time ] || { echo -; return; }
    /usr/bin/time -f %M -o peak "$@" P >/dev/null 2>&1
    awk '{ printf "%.1f\n", $1 / 1024 }' peak
}

for name in $models; do
    lattice "$name" >P.lat
    rm -f times
    for round in 1 2 3 4 5; do
        ours=$(timed "$markov" --workers 1) && same=$(timed 4ti2-markov -q -g saturation -p 64) && default=$(timed 4ti2-markov -q) || exit 1
        echo "$ours $same $default" >>times
    done
    awk -v name="$name" -v peaks="$(memory "$markov" --workers 1) $(memory 4ti2-markov -q -g saturation -p 64) $(memory 4ti2-markov -q)" '
        NR == 1 { for (k = 1; k <= 3; k++) best[k] = $k }
        { for (k = 1; k <= 3; k++) if ($k < best[k]) best[k] = $k }
        END {
            split(peaks, peak, " ")
            printf "%-6s markov %.3f s, 4ti2 saturation %.3f s (ratio %.2f), 4ti2 default %.3f s (ratio %.2f); memory %s, %s, %s MB\n",
                name, best[1] / 1e6, best[2] / 1e6, best[1] / best[2], best[3] / 1e6, best[1] / best[3], peak[1], peak[2], peak[3]
        }' times
    "$solve" | awk '
        $1 == "saturation" || $1 == "completion" { coprime += $5; chain += $7; zero += $9; place += $11 }
        END { printf "       pairs %d: coprime %d, chain %d, zero %d, place %d\n", coprime + chain + zero + place, coprime, chain, zero, place }'
done
