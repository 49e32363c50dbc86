#!/usr/bin/env bash
# Runs the built program many times with several workers, and compares each answer with that of one worker: ten lattices, each so many
# times with 2, 8 and 64 workers. Each run must end within a minute with status 0 and the same bytes, and say nothing.
# Usage: tests/stress.sh PROGRAM [RUNS]

[ $# -ge 1 ] && [ -f "$1" ] || { echo "usage: $0 PROGRAM [RUNS]" >&2; exit 2; }
here=$(realpath "$(dirname "$0")") || exit 2
runs=${2:-200}
work=$(realpath "$(mktemp -d)") || exit 2
trap 'rm -rf "$work"' EXIT
program=$work/markov
cp "$1" "$program" && chmod 755 "$program"
. "$here/../bench/lattice.sh"
cd "$work" || exit 2
export LC_ALL=C

# The lattices: three examples, three rows each two of whose leads overlap, a made model, and five of mixed entries, most of whose leads
# overlap, so that workers share their first phase, and of that with 70 columns later ones.
for name in curve threeway cube; do
    mkdir "$name" && cp "$here/../examples/$name/"* "$name/" && rm -f "$name"/*.mar
    for file in "$name"/*; do mv "$file" "$name/P.${file##*.}"; done
done
mkdir overlapping && printf '3 4\n1 1 -1 -1\n1 -1 1 -1\n1 -1 -1 1\n' >overlapping/P.lat
mkdir 3x3x3 && lattice 3x3x3 >3x3x3/P.lat
for file in "$here/mixed/"*.lat; do
    name=$(basename "$file" .lat)
    mkdir "$name" && cp "$file" "$name/P.lat"
done

passed=0
failed=0
for folder in */; do
    (cd "$folder" && "$program" --workers 1 P 2>../said) || { echo "$folder: status $? of one worker: $(cat said)" >&2; exit 1; }
    mv "$folder/P.mar" answer
    for workers in 2 8 64; do
        for ((run = 0; run < runs; run++)); do
            (cd "$folder" && timeout 60 "$program" --workers "$workers" P >../said 2>&1)
            status=$?
            if [ "$status" -eq 0 ] && [ ! -s said ] && cmp -s answer "$folder/P.mar"; then
                passed=$((passed + 1))
            else
                failed=$((failed + 1))
                echo "${folder%/} with $workers workers: status $status" >&2
            fi
            rm -f "$folder/P.mar"
        done
    done
done
echo "$passed runs passed, $failed failed"
[ "$failed" -eq 0 ]
