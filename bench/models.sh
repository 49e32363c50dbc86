#!/usr/bin/env bash
# Measures how long whole independence models take, given as files that are made here: 3 by 3 by 3 and 3 by 3 by 4 (no
# three-way interaction), 6 by 6 and 8 by 8. Two lines for each: the model, the phases, the pairs of each kind, the moves of the
# reduced basis and of the answer; then the seconds of each part, which the program SOLVE_BENCH goes through one after another and
# says a line at the end of each, and those of the program `markov`, which does all of it and writes the answer. Reading the
# file is in the first part's time. A run of `markov` settles at most 20,000,000 pairs and SOLVE_BENCH more, so that a large
# model may have its parts while `markov` ends with status 5.
# Usage: bench/models.sh MARKOV SOLVE_BENCH [MODEL ..]
# MARKOV is build/markov, SOLVE_BENCH is crates/solve_bench/out/solve_bench, and a MODEL is like 6x6 or 3x3x3.

[ $# -ge 2 ] && [ -x "$1" ] && [ -x "$2" ] || { echo "usage: $0 MARKOV SOLVE_BENCH [MODEL ..]" >&2; exit 2; }
markov=$(realpath "$1")
solve=$(realpath "$2")
shift 2
models=${*:-3x3x3 6x6 8x8 3x3x4}
. "$(dirname "$0")/lattice.sh"
work=$(mktemp -d) || exit 2
trap 'rm -rf "$work"' EXIT
cd "$work" || exit 2
export LC_ALL=C
failed=0

# Goes through the parts, each line with the microseconds since the one before in front.
parts() {
    local last=${EPOCHREALTIME/./} now line
    "$solve" | while read -r line; do
        now=${EPOCHREALTIME/./}
        echo "$((now - last)) $line"
        last=$now
    done
    return "${PIPESTATUS[0]}"
}

for name in $models; do
    rm -f P.mar
    lattice "$name" >P.lat
    parts >parts || { echo "$name: status $? of the parts" >&2; failed=1; continue; }
    begin=${EPOCHREALTIME/./}
    "$markov" --workers 1 P
    status=$?
    time=$((${EPOCHREALTIME/./} - begin))
    [ $status -eq 0 ] || { echo "$name: status $status of markov" >&2; failed=1; }
    awk -v name="$name" -v whole=$time -v status=$status -v answer="$(head -qn 1 P.mar 2>/dev/null)" '
        { seconds[$2] = $1 / 1e6 }
        $2 == "saturation" { phases = $3 + 1 }
        $2 == "saturation" || $2 == "completion" { coprime += $6; chain += $8; zero += $10; place += $12 }
        $2 == "tails" { reduced = $3 }
        $2 == "minimising" { moves = $3 }
        END {
            split(answer, word, " ")
            if (status == 0 && word[1] != moves) { print name ": an answer of " word[1] " moves for " moves; exit 1 }
            printf "%-6s phases %d, pairs %d (coprime %d, chain %d, zero %d, place %d), moves of the reduced basis %d, of the answer %d\n",
                name, phases, coprime + chain + zero + place, coprime, chain, zero, place, reduced, moves
            printf "       saturation %.3f s, completion %.3f s, tails %.3f s, minimising %.3f s, markov %.3f s%s\n",
                seconds["saturation"], seconds["completion"], seconds["tails"], seconds["minimising"], whole / 1e6,
                status ? " until it stopped" : ""
        }' parts || failed=1
done
exit $failed
