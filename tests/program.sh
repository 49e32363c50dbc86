#!/usr/bin/env bash
# Runs the built program over real files and compares its status, what it says and the files that it leaves: each folder of
# examples/ against its answer, and what only real files show. The rows of whole runs stand in crates/mk_run_rows and crates/mk_run_fault_rows.
# Usage: tests/program.sh PROGRAM

[ $# -eq 1 ] && [ -f "$1" ] || { echo "usage: $0 PROGRAM" >&2; exit 2; }
examples=$(realpath "$(dirname "$0")/../examples") || exit 2
work=$(realpath "$(mktemp -d)") || exit 2
chmod 755 "$work"
program=$work/markov
cp "$1" "$program" && chmod 755 "$program"
trap 'umount "$folder" 2>/dev/null; rm -rf "$work"' EXIT
folder=$work/folder
errors=$work/err
limit=
mode=
summary=
as=()
older='7 7\nan older answer\n'
passed=0
failed=0

usage='usage: markov [--workers N] [--budget N] [--upto W] PROJECT or markov [--workers N] [--budget N] [--upto W] --model RxC[xD]'
failed_line='markov: a file or stream failed'

# An empty folder for the next case.
fresh() {
    if mountpoint -q "$folder" 2>/dev/null; then umount "$folder"; fi
    rm -rf "$folder"
    mkdir "$folder"
    chmod 777 "$folder"
    wanted=()
}

# A file of this name is there at the end.
wants() {
    local file
    for file in "${wanted[@]}"; do [ "$file" != "$1" ] || return 0; done
    wanted+=("$1")
}

# A file that the case starts with, and that stays as it is. The text is one of printf.
given() {
    printf -- "$2" >"$folder/$1"
    stays "$1"
}

# A file or folder of the case that stays as it is.
stays() {
    rm -rf "$work/want.$1"
    cp -rP "$folder/$1" "$work/want.$1"
    wants "$1"
}

# A file that the case makes.
made() {
    rm -rf "$work/want.$1"
    printf -- "$2" >"$work/want.$1"
    wants "$1"
}

# Runs the program on the words behind the first three: the name of the case, the status, and the line on standard
# error, or nothing. Standard output is to have $summary. Standard error goes to $errors, or is closed where that is -, no file grows past
# $limit KiB, P.mar has the permissions $mode at the end, and $as are the words that run it as another user or under a tracer.
ends() {
    local name=$1 status=$2 line=$3 faults=() got file
    shift 3
    if [ -n "$line" ]; then printf '%s\n' "$line"; fi >"$work/err.want"
    : >"$work/err"
    (
        cd "$folder" || exit 9
        if [ -n "$limit" ]; then
            trap '' XFSZ
            ulimit -f "$limit"
        fi
        if [ "$errors" = - ]; then exec 2>&-; else exec 2>"$errors"; fi
        exec timeout 60 "${as[@]}" "$program" "$@"
    ) >"$work/out" </dev/null
    got=$?
    [ "$got" -eq "$status" ] || faults+=("status $got for $status")
    printf -- "$summary" | cmp -s "$work/out" - || faults+=("other text on standard output: $(cat "$work/out")")
    cmp -s "$work/err" "$work/err.want" || faults+=("other text on standard error: $(cat "$work/err")")
    for file in "${wanted[@]}"; do
        diff -r --no-dereference "$folder/$file" "$work/want.$file" >/dev/null 2>&1 || faults+=("$file is other")
    done
    got=$mode
    if [ -n "$mode" ]; then got=$(stat -c %a "$folder/P.mar"); fi
    [ "$got" = "$mode" ] || faults+=("permissions $got for $mode")
    got=$(find "$folder" -mindepth 1 -maxdepth 1 | wc -l)
    [ "$got" -eq ${#wanted[@]} ] || faults+=("$got files for ${#wanted[@]}: $(ls -A "$folder" | tr '\n' ' ')")
    if [ ${#faults[@]} -eq 0 ]; then
        passed=$((passed + 1))
    else
        failed=$((failed + 1))
        printf 'FAILED %s: %s\n' "$name" "$(printf '%s; ' "${faults[@]}")"
    fi
}

# A lattice that has this answer.
answers() {
    fresh
    given P.lat "$1"
    made P.mar "$2"
    ends "answer to $1" 0 '' P
}

# A lattice that is refused with this line, under an older answer.
refuses() {
    fresh
    given P.lat "$1"
    given P.mar "$older"
    ends "no answer to $1" 2 "$2" P
}

# Each example, whose answer beside it was found by 4ti2-markov (bench/expected.sh).
for example in "$examples"/*/; do
    name=$(basename "$example")
    fresh
    for file in "$example"*; do
        file=$(basename "$file")
        if [ "$file" = "$name.mar" ]; then
            rm -rf "$work/want.$file"
            cp "$example$file" "$work/want.$file"
            wants "$file"
        else
            cp "$example$file" "$folder/$file"
            stays "$file"
        fi
    done
    ends "the example $name" 0 '' "$name"
done

# A status of each number that a small file can have.
fresh
ends 'two projects' 1 "$usage" P Q
ends 'no words' 1 "$usage"
ends 'a word that is no text' 1 "$usage" $'P\xff'
ends 'no P.lat' 2 'markov: P.lat: not there' P
given P.mar "$older"
ends 'no P.lat under an older answer' 2 'markov: P.lat: not there' P
given P.lat '2 4\n1 604462909807314587353089 0 -604462909807314587353090\n1 -604462909807314587353089 604462909807314587353089 -1\n'
ends 'an entry leaves its range' 4 'markov: overflow in column 2: -604462909807314587353089 - (1) * (604462909807314587353089)' P
fresh
given -P.lat '1 2\n2 -2\n'
made -P.mar '1 2\n2 -2\n'
ends 'a project like an option' 0 '' -- -P

# Words that are refused, and touch no file.
refuses_words() {
    fresh
    given P.lat '1 2\n2 -2\n'
    ends "no request: $*" 1 "$usage" "$@"
}
refuses_words --workers 0 P
refuses_words --workers 65 P
refuses_words --budget 100000001 P
refuses_words --upto 18446744073709551616 P
refuses_words --upto -1 P
refuses_words --upto=-1 P
refuses_words --model 2x2 P
refuses_words --model 17x2
refuses_words --model 16x16x3
refuses_words --model 8x8x9
refuses_words --workers 1 --workers 1 P
refuses_words --workers 1 --workers=1 P
refuses_words --budget --upto 2 P
refuses_words --help
fresh
given -P.lat '1 2\n2 -2\n'
made -P.mar '1 2\n2 -2\n'
ends 'three workers and a project like an option' 0 '' --workers=03 -- -P

# Budgets and bounds.
fresh
given P.lat '2 4\n1 -2 1 0\n0 1 -2 1\n'
ends 'no budget' 5 'markov: budget of 0 pairs used and a pair is left' --budget 0 P
fresh
given P.lat '1 2\n1 -1\n'
made P.mar '1 2\n1 -1\n'
ends 'no budget, and no pair' 0 '' --budget 0 P
bounded() {
    fresh
    given P.lat '2 3\n1 -2 1\n3 -1 -1\n'
    given P.grade '1 3\n3 4 5\n'
    made P.mar "$2"
    ends "the curve 3 4 5 up to $1" 0 '' --upto "$1" P
}
bounded 9 '2 3\n-1 2 -1\n3 -1 -1\n'
bounded 10 '3 3\n-1 2 -1\n3 -1 -1\n2 1 -2\n'
bounded 7 '0 3\n'

# Made tables with their summary.
summarises() {
    fresh
    given P.mar 'kept\n'
    summary=$1
    shift
    ends "the summary of $*" 0 '' "$@"
    summary=
}
summarises 'model 2x2\nrows 1 columns 4\nmoves 1\nweight 2 moves 1\n' --model 2x2
summarises 'model 2x2\nrows 1 columns 4\nmoves 0\n' --model 2x2 --upto 1
summarises 'model 4x4\nrows 9 columns 16\nmoves 36\nweight 2 moves 36\n' --model 4x4
summarises 'model 5x5\nrows 16 columns 25\nmoves 100\nweight 2 moves 100\n' --model 5x5
summarises 'model 6x6\nrows 25 columns 36\nmoves 225\nweight 2 moves 225\n' --model 6x6 --budget 100000000
summarises 'model 3x3x3\nrows 8 columns 27\nmoves 81\nweight 4 moves 27\nweight 6 moves 54\n' --model 3x3x3
summarises 'model 3x3x3\nrows 8 columns 27\nmoves 27\nweight 4 moves 27\n' --model 3x3x3 --upto 4
fresh
ends 'a made table without a budget' 5 'markov: budget of 0 pairs used and a pair is left' --model 3x3 --budget 0

# Files that no table is meant to be, each refused in one line.
refuses '' 'markov: P.lat: line 1, byte 0: 0 of 2 header numbers'
refuses '\0' 'markov: P.lat: line 1, byte 0: not a number'
refuses '1 2\n1 \0 -1\n' 'markov: P.lat: line 2, byte 6: not a number'
refuses '\xef\xbb\xbf1 2\n1 -1\n' 'markov: P.lat: line 1, byte 0: not a number'
answers '1 2\r\n1 -1\r\n' '1 2\n1 -1\n'

# Each front of a lattice, by its number of bytes.
cubic='2 4\n1 -2 1 0\n0 1 -2 1\n'
moves='3 4\n0 -1 2 -1\n-1 1 1 -1\n-1 2 -1 0\n'
while read -r length line; do
    fresh
    printf -- "$cubic" | head -c "$length" >"$folder/P.lat"
    stays P.lat
    given P.mar "$older"
    ends "$length bytes of the twisted cubic" 2 "markov: P.lat: $line" P
done <<'FRONTS'
0 line 1, byte 0: 0 of 2 header numbers
1 line 1, byte 1: 1 of 2 header numbers
2 line 1, byte 2: 1 of 2 header numbers
3 line 1, byte 3: 0 of 8 entries
4 line 2, byte 4: 0 of 8 entries
5 line 2, byte 5: 1 of 8 entries
6 line 2, byte 6: 1 of 8 entries
7 line 2, byte 6: not a number
8 line 2, byte 8: 2 of 8 entries
9 line 2, byte 9: 2 of 8 entries
10 line 2, byte 10: 3 of 8 entries
11 line 2, byte 11: 3 of 8 entries
12 line 2, byte 12: 4 of 8 entries
13 line 3, byte 13: 4 of 8 entries
14 line 3, byte 14: 5 of 8 entries
15 line 3, byte 15: 5 of 8 entries
16 line 3, byte 16: 6 of 8 entries
17 line 3, byte 17: 6 of 8 entries
18 line 3, byte 17: not a number
19 line 3, byte 19: 7 of 8 entries
20 line 3, byte 20: 7 of 8 entries
FRONTS
answers "${cubic%??}" "$moves"
answers "$cubic" "$moves"

# Bytes that only a hostile hand writes.
refuses '4097 x' 'markov: P.lat: line 1, byte 0: more than 4096 rows'
refuses '4096 512\n' 'markov: P.lat: line 2, byte 9: 0 of 2097152 entries'
refuses '1 2\n1 -1\n\0' 'markov: P.lat: line 3, byte 9: text after the last entry'
refuses '1 2\n1 --1' 'markov: P.lat: line 2, byte 6: not a number'
answers '+0 512' '0 512\n'

# A P.lat of so many bytes of one kind, behind a text.
long() {
    { printf -- "$1"; head -c "$2" /dev/zero | tr '\0' "$3"; } >"$folder/P.lat"
    stays P.lat
}
fresh
long '1 2\n' 1000000 7
ends 'an entry of a million digits' 2 'markov: P.lat: line 2, byte 4: number out of range' P
fresh
long '1 2\n' 1000000 9
ends 'an entry of a million nines' 2 'markov: P.lat: line 2, byte 4: number out of range' P
fresh
long '1 2\n-1 ' 1000000 0
printf '1\n' >>"$folder/P.lat"
stays P.lat
made P.mar '1 2\n1 -1\n'
ends 'an entry of a million zeros and a 1' 0 '' P
fresh
long '' 1000000 7
ends 'a number of rows of a million digits' 2 'markov: P.lat: line 1, byte 0: more than 4096 rows' P
fresh
long '' 67108864 0
ends '64 MiB of the digit 0' 2 'markov: P.lat: line 1, byte 67108864: 1 of 2 header numbers' P
fresh
long '' 67108864 '\0'
ends '64 MiB of the byte 0' 2 'markov: P.lat: line 1, byte 0: not a number' P
fresh
long '' 67108864 '\n'
ends '64 MiB of line ends' 2 'markov: P.lat: line 67108865, byte 67108864: 0 of 2 header numbers' P

# A file of 64 MiB, and one that is a byte longer.
fresh
long '0 4' 67108861 ' '
made P.mar '0 4\n'
ends '67108864 bytes' 0 '' P
fresh
long '0 4' 67108862 ' '
ends '67108865 bytes' 2 'markov: P.lat: more than 67108864 bytes' P

# Files that fail: a folder or a link to itself that is to be read, and a folder that the answer is to replace.
fresh
mkdir "$folder/P.lat"
stays P.lat
ends 'P.lat is a folder' 3 "$failed_line" P
for beside in P.mat P.grade; do
    fresh
    given P.lat '1 2\n2 -2\n'
    mkdir "$folder/$beside"
    stays "$beside"
    ends "$beside is a folder" 3 "$failed_line" P
done
fresh
ln -s P.lat "$folder/P.lat"
stays P.lat
ends 'P.lat is a link to itself' 3 "$failed_line" P
fresh
given P.lat '1 2\n2 -2\n'
mkdir "$folder/P.mar"
printf 'kept\n' >"$folder/P.mar/file"
stays P.mar
ends 'P.mar is a folder' 3 "$failed_line" P

# What has the name of the file that the answer is made in, as a run that was killed leaves it, stays, and the answer is made in one
# beside it; but a hundred of them are too many.
fresh
given P.lat '1 2\n2 -2\n'
given P.mar.part 'mine\n'
made P.mar '1 2\n2 -2\n'
ends 'P.mar.part is a file' 0 '' P
fresh
given P.lat '1 2\n2 -2\n'
mkdir "$folder/P.mar.part"
printf 'kept\n' >"$folder/P.mar.part/file"
stays P.mar.part
given P.mar.part2 'mine\n'
made P.mar '1 2\n2 -2\n'
ends 'P.mar.part is a folder and P.mar.part2 a file' 0 '' P
fresh
given P.lat '1 2\n2 -2\n'
given P.mar.part 'mine\n'
for number in $(seq 2 100); do given "P.mar.part$number" 'mine\n'; done
ends 'every name of a part is taken' 3 "$failed_line" P

# An answer has the permissions of the older one, whatever the mask takes away, and a first one those that the mask leaves.
for mode in 600 640 666 444; do
    fresh
    given P.lat '1 2\n2 -2\n'
    printf "$older" >"$folder/P.mar"
    chmod "$mode" "$folder/P.mar"
    made P.mar '1 2\n2 -2\n'
    ends "an older answer that has $mode" 0 '' P
done
mode=$(printf '%o' $((0666 & ~$(umask))))
fresh
given P.lat '1 2\n2 -2\n'
made P.mar '1 2\n2 -2\n'
ends "a first answer has $mode" 0 '' P
mode=

# An answer of more than 1024 bytes, of which the first 1024 are written.
fresh
given P.lat "1 512\n$(yes '1000 -1000' | head -n 256)\n"
given P.mar "$older"
limit=1
ends 'the answer finds no room' 3 "$failed_line" P
limit=

# Standard error that takes nothing, or that is closed.
for errors in /dev/full -; do
    fresh
    ends "faulty words, and no line in $errors" 1 '' P Q
    ends "no P.lat, and no line in $errors" 2 '' P
    mkdir "$folder/P.lat"
    stays P.lat
    ends "P.lat is a folder, and no line in $errors" 3 '' P
    fresh
    given P.lat "$cubic"
    given P.mar "$older"
    limit=0
    ends "nothing may be written, and no line in $errors" 3 '' P
    limit=
    fresh
    given P.lat "$cubic"
    made P.mar "$moves"
    ends "an answer, and nothing to say in $errors" 0 '' P
done
errors=$work/err

# A file that may not be read, or a folder that may not be written, for a user who isn't root.
if [ "$(id -u)" -ne 0 ] || command -v setpriv >/dev/null; then
    [ "$(id -u)" -ne 0 ] || as=(setpriv --reuid 65534 --regid 65534 --clear-groups)
    fresh
    given P.lat '1 2\n2 -2\n'
    made P.mar '1 2\n2 -2\n'
    ends 'another user' 0 '' P
    fresh
    given P.lat '1 2\n2 -2\n'
    chmod 000 "$folder/P.lat"
    ends 'P.lat may not be read' 3 "$failed_line" P
    for beside in P.mat P.grade; do
        fresh
        given P.lat '1 2\n2 -2\n'
        given "$beside" '1 2\n1 1\n'
        chmod 000 "$folder/$beside"
        ends "$beside may not be read" 3 "$failed_line" P
    done
    fresh
    given P.lat '1 2\n2 -2\n'
    given P.mar "$older"
    chmod 555 "$folder"
    if [ "$(id -u)" -eq 0 ]; then chown 65534 "$folder"; fi
    ends 'nothing may be made' 3 "$failed_line" P
    chmod 755 "$folder"
    as=()
else
    echo 'setpriv is not there: no run as another user'
fi

# A case on a file system of its own, with room for so many blocks of 4,096 bytes and so many files, the folder among them.
disk() {
    fresh
    mount -t tmpfs -o "size=$(($1 * 4))k,nr_inodes=$2,mode=777" tmpfs "$folder" 2>/dev/null
}

# Disks that are full: after the lattice and an older answer, after the first block of an answer, or of files. And one that may only be
# read. Once there is room the next run answers.
if disk 2 9; then
    threeway=$(cat "$examples/threeway/threeway.lat")
    for room in '2 9' '3 9' '9 3'; do
        disk $room
        given P.lat "$threeway\n"
        given P.mar "$older"
        ends "a disk of $room blocks and files" 3 "$failed_line" P
        mount -o remount,size=1m,nr_inodes=99 "$folder"
        cp "$examples/threeway/threeway.mar" "$work/want.P.mar"
        ends "the disk of $room has room again" 0 '' P
    done
    disk 9 9
    given P.lat "$cubic"
    given P.mar "$older"
    mount -o remount,ro "$folder"
    ends 'a disk that may only be read' 3 "$failed_line" P
    mount -o remount,rw "$folder"
    made P.mar "$moves"
    ends 'the disk may be written again' 0 '' P
    fresh
else
    echo 'no file system can be mounted: no run on a full disk'
fi

# What a run that was killed left: P.mar is the older answer or this one, whole, and the next run answers, whatever else there is.
answers_again() {
    local name=$1 answer=$2
    printf "$older" >"$work/older"
    if ! cmp -s "$folder/P.mar" "$answer" && ! cmp -s "$folder/P.mar" "$work/older"; then
        failed=$((failed + 1))
        echo "FAILED $name: P.mar is neither answer"
    fi
    [ ! -e "$folder/P.mar.part" ] || stays P.mar.part
    rm -rf "$work/want.P.mar"
    cp "$answer" "$work/want.P.mar"
    wants P.mar
    ends "the run after $name" 0 '' P
}

# The system calls that a run makes on its files, by kind, each with the error that it gets: each of them fails in turn, which ends the
# run with this status, or the run is killed as it begins. Once the answer has its name, a folder that can't be synced is no fault; nor
# are permissions that can't be read or set: the answer then has fewer.
printf "$moves" >"$work/moves"
traced() {
    local file
    as=(strace -qq -o /dev/null -e "trace=$1" -e "inject=$1:$2")
    for file in '' /P.lat /P.mat /P.grade /P.mar /P.mar.part; do as+=(-P "$folder$file"); done
}
if strace -qq -o /dev/null true 2>/dev/null; then
    while read -r call error statuses; do
        number=0
        for status in $statuses; do
            number=$((number + 1))
            fresh
            given P.lat "$cubic"
            given P.mar "$older"
            line=$failed_line
            if [ "$status" -eq 0 ]; then
                line=
                cp "$work/moves" "$work/want.P.mar"
            fi
            traced "$call" "error=$error:when=$number"
            ends "$call $number fails" "$status" "$line" "$folder/P"
            fresh
            given P.lat "$cubic"
            printf "$older" >"$folder/P.mar"
            traced "$call" "signal=KILL:when=$number"
            { (cd "$folder" && exec "${as[@]}" "$program" "$folder/P") </dev/null >/dev/null; } 2>/dev/null
            [ $? -eq 137 ] || { failed=$((failed + 1)); echo "FAILED $call $number: the run wasn't killed"; }
            as=()
            answers_again "a run killed at $call $number" "$work/moves"
        done
        fresh
        given P.lat "$cubic"
        made P.mar "$moves"
        traced "$call" "error=$error:when=$((number + 1))"
        ends "$call is made $number times" 0 '' "$folder/P"
        as=()
    done <<'CALLS'
openat EMFILE 3 3 3 3 0
read EIO 3 3
write ENOSPC 3 3 3 3
fsync EIO 3 0
rename EIO 3
statx EIO 0
fchmod EPERM 0
CALLS
else
    echo 'strace is not there or may not trace: no system call that fails'
fi

# Runs that get a signal, some as soon as the part file is there and the others at any moment, and one that is stopped over and over: it
# ends with its answer.
started=$(date +%s%N)
fresh
cp "$examples/threeway/threeway.lat" "$folder/P.lat"
(cd "$folder" && exec "$program" P) </dev/null
took=$((($(date +%s%N) - started) / 1000))
[ "$took" -lt 900000 ] || took=900000
for turn in $(seq 1 24); do
    fresh
    cp "$examples/threeway/threeway.lat" "$folder/P.lat"
    stays P.lat
    printf "$older" >"$folder/P.mar"
    (cd "$folder" && exec "$program" P) </dev/null >/dev/null 2>&1 &
    child=$!
    if [ $((turn % 2)) -eq 0 ]; then
        sleep "$(printf '0.%06d' $((RANDOM * took / 32768)))"
    else
        until [ -e "$folder/P.mar.part" ] || ! kill -0 "$child" 2>/dev/null; do :; done
    fi
    signals=(KILL TERM HUP)
    kill "-${signals[$((turn % 3))]}" "$child" 2>/dev/null
    wait "$child" 2>/dev/null
    answers_again "a killed run, $turn" "$examples/threeway/threeway.mar"
done
fresh
cp "$examples/threeway/threeway.lat" "$folder/P.lat"
stays P.lat
(cd "$folder" && exec "$program" P) </dev/null >/dev/null 2>&1 &
child=$!
for _ in $(seq 1 40); do
    kill -STOP "$child" 2>/dev/null
    kill -CONT "$child" 2>/dev/null
done
wait "$child"
got=$?
[ "$got" -eq 0 ] || { failed=$((failed + 1)); echo "FAILED a run that is stopped and goes on: status $got for 0"; }
answers_again 'a run that was stopped' "$examples/threeway/threeway.mar"

echo "$passed passed, $failed failed"
[ "$failed" -eq 0 ]
