#!/bin/sh
# Tests what the program answers where a call on its standard streams fails: an input that cannot be read, a full disk, a
# pipe whose reader is gone, streams that are closed. Compares the status, the output and the report, and ends with status
# 1 where one differs. The program is $BFM_CLI, or the one that `rt run` makes in this repository. Needs /dev/full.
set -eu
example=faults
here=$(cd "$(dirname "$0")" && pwd)
# shellcheck source-path=SCRIPTDIR source=../common.sh
. "$here/../common.sh"
find_program
work=$(mktemp -d)
trap 'rm -rf "$work"' EXIT
tests=0
failures=0

# same WHAT FOUND WANTED
same() {
    tests=$((tests + 1))
    if [ "$2" != "$3" ]; then
        printf '%s: found [%s], wanted [%s]\n' "$1" "$2" "$3"
        failures=$((failures + 1))
    fi
}

# called REPORT WORDS..: runs the program with the input and the output of this call, and keeps its status
called() {
    report=$1
    shift
    found=0
    "$program" "$@" 2> "$report" || found=$?
    echo "$found" > "$work/status"
}

# stands WHAT STATUS REPORT: how the program ended that was called last, with its report in `told`
stands() {
    same "$1, status" "$(cat "$work/status")" "$2"
    same "$1, report" "$(cat "$work/told")" "$3"
}

# empty WHAT: nothing was written
empty() {
    same "$1, bytes written" "$(wc -c < "$work/out" | tr -d ' ')" 0
}

# begins WHAT FILE: what was written is the beginning of a file
begins() {
    head -c "$(wc -c < "$work/out")" "$2" > "$work/beginning"
    same "$1, what was written" "$(cksum < "$work/out")" "$(cksum < "$work/beginning")"
}

if [ ! -c /dev/full ]; then
    fail "there is no /dev/full here, and so no full disk to write to"
fi

# One monomer, and what a run of one frame adds; a melt whose run writes more than a pipe holds.
printf '!number_of_monomers=1\n!box_x=8\n!box_y=8\n!box_z=8\n!periodic_x=1\n!periodic_y=1\n!periodic_z=1\n!mcs=0\n3 3 3\n' > "$work/one"
{ cat "$work/one"; printf '\n!mcs=1\n3 4 3\n'; } > "$work/whole"
called "$work/told" build melt x=32 y=32 z=32 chains=128 length=16 < /dev/null > "$work/melt"
called "$work/told" run seed=1 frames=40 every=1 < "$work/melt" > "$work/long"
stands "a run that does not fail" 0 "$(cat "$work/told")"
run_one="run seed=42 frames=1 every=1"

# Inputs that cannot be read: a folder, a stream that was opened for writing alone, and a closed one.
for word in info check radii moves contacts clusters; do
    called "$work/told" "$word" < / > "$work/out"
    stands "$word of a folder" 5 read
    empty "$word of a folder"
done
# shellcheck disable=SC2086
called "$work/told" $run_one 0> "$work/unread" > "$work/out"
stands "a run of an input for writing" 5 read
empty "a run of an input for writing"
# shellcheck disable=SC2086
called "$work/told" $run_one <&- > "$work/out"
stands "a run of a closed input" 5 read
empty "a run of a closed input"

# What does not read has no such fault: a start, and wrong words.
called "$work/told" build melt x=8 y=8 z=8 chains=1 length=1 < / > "$work/out"
stands "a start beside a folder" 0 ""
called "$work/told" run < / > "$work/out"
stands "wrong words beside a folder" 2 "words 2"
empty "wrong words beside a folder"

# Outputs that take nothing: a full disk, a closed stream, and one that was opened for reading alone.
for words in "$run_one" "run seed=42 frames=0 every=1" info check radii moves contacts clusters \
    "build melt x=8 y=8 z=8 chains=1 length=1"; do
    # shellcheck disable=SC2086
    called "$work/told" $words < "$work/one" > /dev/full
    stands "$words to a full disk" 6 write
    # shellcheck disable=SC2086
    called "$work/told" $words < "$work/one" >&-
    stands "$words to a closed output" 6 write
    # shellcheck disable=SC2086
    called "$work/told" $words < "$work/one" 1< "$work/one"
    stands "$words to an output for reading" 6 write
done

# What has nothing to write does not find out: a wrong file.
called "$work/told" info < /dev/null > /dev/full
stands "a wrong file to a full disk" 3 "line 1 cause 18 NoFrame"

# A pipe whose reader is gone before the first byte, and one whose reader goes in between.
{
    until [ -e "$work/gone" ]; do :; done
    # shellcheck disable=SC2086
    called "$work/told" $run_one < "$work/one"
} | {
    exec <&-
    : > "$work/gone"
}
stands "a pipe without a reader" 6 write
called "$work/told" run seed=1 frames=40 every=1 < "$work/melt" | head -c 100 > "$work/out"
stands "a pipe whose reader goes" 6 write
same "a pipe whose reader goes, bytes read" "$(wc -c < "$work/out" | tr -d ' ')" 100
begins "a pipe whose reader goes" "$work/long"

# Reports that take nothing: the output is whole. A job without a report makes none.
# shellcheck disable=SC2086
called /dev/full $run_one < "$work/one" > "$work/out"
same "a report to a full disk, status" "$(cat "$work/status")" 9
same "a report to a full disk, what was written" "$(cksum < "$work/out")" "$(cksum < "$work/whole")"
found=0
# shellcheck disable=SC2086
"$program" $run_one < "$work/one" > "$work/out" 2>&- || found=$?
same "a closed report, status" "$found" 9
same "a closed report, what was written" "$(cksum < "$work/out")" "$(cksum < "$work/whole")"
called "$work/told" info < "$work/one" > "$work/wanted"
called /dev/full info < "$work/one" > "$work/out"
same "no report, status" "$(cat "$work/status")" 0
same "no report, what was written" "$(cksum < "$work/out")" "$(cksum < "$work/wanted")"

# A fault of the report stands in place of any other: of the input, of the output, of wrong words and of a wrong file.
for words in "$run_one" run; do
    # shellcheck disable=SC2086
    called /dev/full $words < / > "$work/out"
    same "$words, and no report, status" "$(cat "$work/status")" 9
    empty "$words, and no report"
done
called /dev/full info < /dev/null > "$work/out"
same "a wrong file, and no report, status" "$(cat "$work/status")" 9
empty "a wrong file, and no report"
# shellcheck disable=SC2086
called /dev/full $run_one < "$work/one" > /dev/full
same "no output and no report, status" "$(cat "$work/status")" 9

echo "$tests tests, $failures failed"
[ "$failures" -eq 0 ]
