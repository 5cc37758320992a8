#!/bin/sh
# Times the reading of files by `bfm_cli check`, as the kit builds it, whose set of two vectors costs
# next to nothing to check: monomers on single lines and in chain lines, and frames of one monomer in a
# box of 2^24 sites. Prints the best of 10 runs, in nanoseconds for each monomer or frame, with the time of
# the smallest file of the form taken off.
# The placing of the monomers is in it; bench/places times that alone.
# Then the time for each entry that gives 2^17 monomers a label, and for each bond that comes and goes.
# Then the time in milliseconds of files of one line that is refused, for its last monomer alone.
set -e
here=$(cd "$(dirname "$0")" && pwd)
work=${1:-/tmp/reading}
mkdir -p "$work"
cd "$here/../../crates/bfm_cli"
[ -n "$BFM_CLI" ] || { rt run -- check < stdin > "$work/log"; BFM_CLI=./out/bfm_cli; }

# best FORM COUNT: the least time of 10 runs, in nanoseconds
best() {
    python3 "$here/files.py" "$1" "$2" > "$work/file"
    least=999999999999
    for _ in $(seq 10); do
        start=$(date +%s%N)
        "$BFM_CLI" check < "$work/file" > "$work/answer"
        taken=$(($(date +%s%N) - start))
        [ "$taken" -lt "$least" ] && least=$taken
    done
    [ "$(cat "$work/answer")" = "crossing free" ]
    echo "$least"
}

for form in single chain frames; do
    start=$(best $form 32)
    for count in 16384 65536 262144; do
        echo "$form $count: $((($(best $form $count) - start) / count)) ns each"
    done
done
start=$(best frames 32)
echo "frames 1048576: $((($(best frames 1048576) - start) / 1048576)) ns each"

for form in ranges changes; do
    start=$(best $form 1)
    for count in 1000 100000; do
        echo "$form $count: $((($(best $form $count) - start) / count)) ns each"
    done
done

# refused FORM COUNT ANSWER: the time of one run, in milliseconds
refused() {
    python3 "$here/files.py" "$1" "$2" > "$work/file"
    start=$(date +%s%N)
    "$BFM_CLI" check < "$work/file" 2> "$work/answer" && exit 1
    echo "$1 $2: $((($(date +%s%N) - start) / 1000000)) ms"
    [ "$(cat "$work/answer")" = "$3" ]
}

for count in 32768 131072 262144; do
    refused overlap $count "line 16 cause 13 Overlap"
    refused bond $count "line 18 cause 15 BadBond"
done
