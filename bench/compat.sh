#!/usr/bin/env bash
# Goes the way of a user of the 4ti2 package, whose commands are `4ti2-zbasis` and so on: for some matrices `4ti2-zbasis`
# makes the lattice, `markov` answers, and 4ti2's own tools read the answer. The number of moves of each weight is compared
# with that of `4ti2-markov` on the matrix alone, which every minimal Markov basis shares, and the Gröbner basis that
# `4ti2-groebner` makes of the answer with the one that it makes of its own. Where the package is not there (Debian has
# it as `4ti2`) nothing is compared, and the status is 0.
# Usage: bench/compat.sh MARKOV

[ $# -eq 1 ] && [ -f "$1" ] && [ -x "$1" ] || { echo "usage: $0 MARKOV" >&2; exit 2; }
markov=$(realpath "$1")
for tool in zbasis markov groebner output; do
    command -v "4ti2-$tool" >/dev/null || { echo "4ti2-$tool is not installed: nothing compared"; exit 0; }
done
work=$(mktemp -d) || exit 2
trap 'rm -rf "$work"' EXIT
export LC_ALL=C
failed=0

# The sums over all but one of the coordinates left out, of tables of these sizes: a row for each such margin. A word
# like 12 keeps the first and the second coordinate.
margins() {
    awk -v sizes="$1" -v kept="${*:2}" 'BEGIN {
        n = split(sizes, size, "x")
        m = split(kept, keep, " ")
        cells = 1
        for (k = 1; k <= n; k++) cells *= size[k]
        for (c = 0; c < cells; c++) {
            rest = c
            for (k = n; k >= 1; k--) { at[c, k] = rest % size[k]; rest = int(rest / size[k]) }
        }
        text = ""
        rows = 0
        for (j = 1; j <= m; j++) {
            count = 1
            parts = length(keep[j])
            for (p = 1; p <= parts; p++) count *= size[substr(keep[j], p, 1)]
            for (v = 0; v < count; v++) {
                line = ""
                for (c = 0; c < cells; c++) {
                    value = 0
                    for (p = 1; p <= parts; p++) { k = substr(keep[j], p, 1); value = value * size[k] + at[c, k] }
                    line = line (c ? " " : "") (value == v ? 1 : 0)
                }
                text = text line "\n"
                rows++
            }
        }
        printf "%d %d\n%s", rows, cells, text
    }'
}

# How many moves of each weight a list has, a line `WEIGHT NUMBER` each. The weights are the column sums of the matrix,
# which has no negative entry.
weights() {
    awk 'FNR == NR { if (FNR > 1) for (c = 1; c <= NF; c++) w[c] += $c; next }
        FNR > 1 && NF { s = 0; for (c = 1; c <= NF; c++) if ($c > 0) s += w[c] * $c; n[s]++ }
        END { for (s in n) print s, n[s] }' "$1" "$2" | sort -n
}

# The moves of a list in one order of lines, without its first line.
sorted() { tail -n +2 "$1" | awk 'NF { $1 = $1; print }' | sort; }

# Compares the answers for the matrix on standard input.
compare() {
    local name=$1 ours=$work/$1/ours theirs=$work/$1/theirs
    mkdir -p "$ours" "$theirs"
    cat >"$ours/P.mat"
    cp "$ours/P.mat" "$theirs/P.mat"
    local begin middle end faults=()
    (cd "$ours" && 4ti2-zbasis -q P) >/dev/null 2>&1 || faults+=('4ti2-zbasis failed')
    begin=${EPOCHREALTIME/./}
    (cd "$ours" && "$markov" P) 2>"$ours/err" || faults+=("markov: $(cat "$ours/err")")
    middle=${EPOCHREALTIME/./}
    (cd "$theirs" && 4ti2-markov -q P) >/dev/null 2>&1 || faults+=('4ti2-markov failed')
    end=${EPOCHREALTIME/./}
    if [ ${#faults[@]} -eq 0 ]; then
        weights "$ours/P.mat" "$ours/P.mar" >"$ours/weights"
        weights "$theirs/P.mat" "$theirs/P.mar" >"$theirs/weights"
        cmp -s "$ours/weights" "$theirs/weights" || faults+=('other numbers of moves of a weight')
        (cd "$ours" && 4ti2-output --binomials P.mar) >/dev/null 2>&1
        [ "$(grep -c 'x\[' "$ours/P.mar.bin")" -eq "$(head -n 1 "$ours/P.mar" | cut -d ' ' -f 1)" ] || faults+=('4ti2-output reads another list')
        (cd "$ours" && 4ti2-groebner -q P) >/dev/null 2>&1 || faults+=('4ti2-groebner failed on the answer')
        (cd "$theirs" && 4ti2-groebner -q P) >/dev/null 2>&1 || faults+=('4ti2-groebner failed')
        [ "$(sorted "$ours/P.gro")" = "$(sorted "$theirs/P.gro")" ] || faults+=('another Gröbner basis')
    fi
    if [ ${#faults[@]} -eq 0 ]; then
        printf '%-16s %5d moves, by weight: %s; markov %.3f s, 4ti2-markov %.3f s\n' "$name" "$(head -n 1 "$ours/P.mar" | cut -d ' ' -f 1)" \
            "$(tr ' \n' ': ' <"$ours/weights" | sed 's/ $//')" "$(awk "BEGIN { print ($middle - $begin) / 1e6 }")" "$(awk "BEGIN { print ($end - $middle) / 1e6 }")"
    else
        failed=1
        printf '%-16s DIFFERS: %s\n' "$name" "$(printf '%s; ' "${faults[@]}")"
    fi
}

printf '2 4\n1 1 1 1\n0 1 2 3\n' | compare cubic
printf '2 5\n1 1 1 1 1\n0 1 2 3 4\n' | compare quartic
printf '1 3\n3 4 5\n' | compare curve-3-4-5
printf '1 3\n1 2 3\n' | compare curve-1-2-3
printf '1 5\n4 6 9 10 15\n' | compare five-coins
printf '3 7\n1 0 2 1 3 0 1\n0 2 1 1 0 3 2\n1 1 0 2 1 1 0\n' | compare seven-columns
margins 3x3 1 2 | compare 3-by-3
margins 4x4 1 2 | compare 4-by-4
margins 2x2x2 12 13 23 | compare 2-by-2-by-2
margins 2x3x3 12 13 23 | compare 2-by-3-by-3
margins 3x3x3 12 13 23 | compare 3-by-3-by-3
margins 2x2x2x2 12 23 34 | compare chain-of-four
exit $failed
