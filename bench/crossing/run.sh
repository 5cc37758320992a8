#!/bin/sh
# Times `bfm_cli check`, as the kit builds it: on a file with no bond vector, which costs the start of
# the program and the reading, on one with the usual 108, all of which are searched, and on one with
# 200, where the search ends at the first crossing. Prints the best of 20 runs, in microseconds, and
# the first line of the output.
set -e
here=$(cd "$(dirname "$0")" && pwd)
work=${1:-/tmp/crossing}
mkdir -p "$work"
for count in 0 108 200; do
    python3 "$here/sets.py" $count > "$work/$count"
done
cd "$here/../../crates/bfm_cli"
rt run -- check < "$work/0" > "$work/log"
for count in 0 108 200; do
    best=999999999999
    for _ in $(seq 20); do
        start=$(date +%s%N)
        ./out/bfm_cli check < "$work/$count" > "$work/answer"
        taken=$(($(date +%s%N) - start))
        [ "$taken" -lt "$best" ] && best=$taken
    done
    echo "$count vectors: $((best / 1000)) us, $(head -1 "$work/answer")"
done
