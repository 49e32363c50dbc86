#!/usr/bin/env bash
# Runs the built program with one allocation refused a run, for each number of an allocation that the run makes: on the twisted cubic, on
# the tables of three rows and three columns with their margins, and on a curve, whose first phase several workers share. Each run ends
# with status 6, with its line and the files as before, or with status 0 and the answer; where the words of the command line find no
# memory nothing is said. The allocator that refuses is put before the C library's, so a C compiler is needed. The runs are by one worker
# unless another number is given; which allocation has a number depends then on who is first.
# Usage: tests/memory.sh PROGRAM [WORKERS]

[ $# -ge 1 ] && [ -f "$1" ] || { echo "usage: $0 PROGRAM [WORKERS]" >&2; exit 2; }
workers=${2:-1}
command -v cc >/dev/null || { echo 'there is no C compiler: no allocation is refused'; exit 0; }
examples=$(realpath "$(dirname "$0")/../examples") || exit 2
work=$(mktemp -d) || exit 2
trap 'rm -rf "$work"' EXIT
program=$work/markov
cp "$1" "$program" && chmod 755 "$program"
folder=$work/folder
printf '7 7\nan older answer\n' >"$work/older"
printf 'markov: out of memory\n' >"$work/line"
failed=0

# An allocator that refuses the call whose number REFUSED is, counted from 1, and then makes the file TELLING.
cc -O1 -shared -fPIC -o "$work/refusing.so" -xc - <<'C' || exit 2
#include <errno.h>
#include <fcntl.h>
#include <stdlib.h>
#include <unistd.h>

extern void *__libc_malloc(size_t);
extern void *__libc_calloc(size_t, size_t);
extern void *__libc_realloc(void *, size_t);
extern void *__libc_memalign(size_t, size_t);

static unsigned long calls, refused;

// Counts a call, whichever thread makes it. Where it is the one to refuse a file tells so.
static int is_refused(void) {
    unsigned long call = __atomic_add_fetch(&calls, 1, __ATOMIC_SEQ_CST);
    if (call == 1) {
        const char *word = getenv("REFUSED");
        refused = word ? strtoul(word, NULL, 10) : 0;
    }
    if (call != refused) return 0;
    const char *name = getenv("TELLING");
    int file = name ? open(name, O_CREAT | O_WRONLY, 0600) : -1;
    if (file >= 0) close(file);
    errno = ENOMEM;
    return 1;
}

void *malloc(size_t size) { return is_refused() ? NULL : __libc_malloc(size); }
void *calloc(size_t count, size_t size) { return is_refused() ? NULL : __libc_calloc(count, size); }
void *realloc(void *place, size_t size) { return is_refused() ? NULL : __libc_realloc(place, size); }
void *aligned_alloc(size_t align, size_t size) { return is_refused() ? NULL : __libc_memalign(align, size); }

int posix_memalign(void **place, size_t align, size_t size) {
    if (is_refused()) return ENOMEM;
    *place = __libc_memalign(align, size);
    return *place ? 0 : ENOMEM;
}
C

# Whether a file of the folder has these bytes.
has() {
    cmp -s "$folder/$1" "$2"
}

# Runs on an example under an older answer with the allocation of this number refused, and leaves its status in $status.
run() {
    local name=$1 file
    rm -rf "$folder" "$work/told"
    mkdir "$folder"
    for file in "$examples/$name/$name".*; do cp "$file" "$folder/P.${file##*.}"; done
    cp "$work/older" "$folder/P.mar"
    (
        cd "$folder" || exit 9
        exec timeout 60 env "REFUSED=$2" "TELLING=$work/told" "LD_PRELOAD=$work/refusing.so" "$program" --workers "$workers" P
    ) >"$work/out" 2>"$work/err" </dev/null
    status=$?
}

# Says what was wrong with a run.
wrong() {
    failed=$((failed + 1))
    echo "FAILED $1, allocation $2: $3"
}

# Every number of an allocation of an example's run in turn, until none is refused.
refuse_each() {
    local name=$1 number=0 memory=0 said=0 answered=0 file
    while :; do
        number=$((number + 1))
        run "$name" "$number"
        [ ! -s "$work/out" ] || wrong "$name" "$number" 'something on standard output'
        for file in "$examples/$name/$name".*; do
            [ "${file##*.}" = mar ] || has "P.${file##*.}" "$file" || wrong "$name" "$number" "$(basename "$file") is other"
        done
        case $status in
            0)
                has P.mar "$examples/$name/$name.mar" || wrong "$name" "$number" 'status 0 and another answer'
                [ ! -s "$work/err" ] || wrong "$name" "$number" 'status 0 and something on standard error'
                [ -e "$work/told" ] || break
                answered=$((answered + 1))
                ;;
            6)
                has P.mar "$work/older" || wrong "$name" "$number" 'status 6 and another answer'
                memory=$((memory + 1))
                if cmp -s "$work/err" "$work/line"; then
                    said=$((said + 1))
                elif [ -s "$work/err" ]; then
                    wrong "$name" "$number" 'status 6 and another line'
                fi
                ;;
            *) wrong "$name" "$number" "status $status" ;;
        esac
        [ "$(find "$folder" -type f | wc -l)" -eq "$(find "$examples/$name" -type f | wc -l)" ] ||
            wrong "$name" "$number" "other files: $(ls "$folder" | tr '\n' ' ')"
        [ "$number" -lt 100000 ] || { wrong "$name" "$number" 'there is no end'; break; }
    done
    echo "$name: $((number - 1)) allocations refused, one a run: $memory runs ended with status 6, $said of them with its line, and $answered with the answer"
}

refuse_each cubic
refuse_each margins
refuse_each curve
echo "$failed failed"
[ "$failed" -eq 0 ]
