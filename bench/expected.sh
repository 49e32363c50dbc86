#!/usr/bin/env bash
# Prints the minimal Markov basis that `4ti2-markov` finds for a project, in the form of docs/FORMATS.md: each move turned so that its
# last nonzero entry is negative, by weight, then lead, then tail. The files beside the examples, NAME.mar, were made so; it is what
# `markov` must write where the lattice has one minimal basis up to signs.
# Usage: bench/expected.sh PROJECT

[ $# -eq 1 ] && [ -f "$1.lat" ] || { echo "usage: $0 PROJECT" >&2; exit 2; }
command -v 4ti2-markov >/dev/null || { echo "4ti2-markov is not installed" >&2; exit 2; }
work=$(mktemp -d) || exit 2
trap 'rm -rf "$work"' EXIT
cp "$1.lat" "$work/P.lat"
(cd "$work" && 4ti2-markov -q P) >/dev/null 2>&1 || { echo "4ti2-markov failed" >&2; exit 2; }

# The grading: the grade, or all ones where each row of the lattice has sum 0, or the sum of the matrix.
for file in "$1.grade" "$work/P.lat" "$1.mat"; do
    [ -f "$file" ] || continue
    awk -v kind="${file##*.}" 'NR == 1 { next } NF { s = 0; for (c = 1; c <= NF; c++) { s += $c; w[c] += $c }; if (s) bad = 1; n = NF }
        END { if (kind == "lat" && bad) exit; for (c = 1; c <= n; c++) printf "%s ", kind == "lat" ? 1 : w[c]; print "" }' "$file" >"$work/weights"
    [ -s "$work/weights" ] && break
done

awk 'FNR == NR { for (c = 1; c <= NF; c++) w[c] = $c; next }
    FNR == 1 { print $1, $2; n = $2; next }
    NF {
        last = n
        while ($last == 0) last--
        k++
        for (c = 1; c <= n; c++) {
            m[k, c] = $last < 0 ? $c : -$c
            if (m[k, c] > 0) weight[k] += w[c] * m[k, c]
        }
    }
    # Does move a come before move b? Along the last column first: the larger entry of the lead, then of the tail.
    function before(a, b,   c, sign, x, y) {
        if (weight[a] != weight[b]) return weight[a] < weight[b]
        for (sign = 1; sign >= -1; sign -= 2)
            for (c = n; c >= 1; c--) {
                x = sign * m[a, c]; y = sign * m[b, c]
                if (x < 0) x = 0
                if (y < 0) y = 0
                if (x != y) return x > y
            }
        return 0
    }
    END {
        for (i = 1; i <= k; i++) { place[i] = i; for (j = i; j > 1 && before(place[j], place[j - 1]); j--) { t = place[j]; place[j] = place[j - 1]; place[j - 1] = t } }
        for (i = 1; i <= k; i++) for (c = 1; c <= n; c++) printf "%d%s", m[place[i], c], c < n ? " " : "\n"
    }' "$work/weights" "$work/P.mar"
