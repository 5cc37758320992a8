#!/bin/sh
# Times the attempts of `bfm_cli run` on the three melts that docs/performance.md tells of, after 200 sweeps of warm-up: all
# monomers of class 0, and all of class 1 with a weight for their contacts. Prints nanoseconds an attempt: the least time of
# several runs of many sweeps less the least time of runs of few, over the attempts between. So reading, start-up and writing
# are not in it; they are told beside it, in milliseconds, as the run of no sweeps.
# Run it on a machine with nothing else to do. BFM_CLI names a program; else it is made by `rt run`.
set -e
here=$(cd "$(dirname "$0")" && pwd)
top=$here/../..
work=${1:-/tmp/attempts}
runs=${RUNS:-7}
mkdir -p "$work"
[ -n "$BFM_CLI" ] || { cd "$top/crates/bfm_cli"; rt run -- run seed=1 frames=0 every=1 < stdin > "$work/log" 2>&1; BFM_CLI=./out/bfm_cli; }

# least FRAMES SWEEPS FILE: the least time of the runs, in nanoseconds
least() {
    best=999999999999999
    for _ in $(seq "$runs"); do
        start=$(date +%s%N)
        "$BFM_CLI" run seed=7 "frames=$1" "every=$2" < "$3" > "$work/out" 2> "$work/report"
        taken=$(($(date +%s%N) - start))
        [ "$taken" -lt "$best" ] && best=$taken
    done
    echo "$best"
}

# told NAME MONOMERS SWEEPS FILE
told() {
    none=$(least 0 1 "$4")
    one=$(least 1 1 "$4")
    many=$(least 1 $(($3 + 1)) "$4")
    echo "$1: $(((many - one) / ($2 * $3))) ns an attempt; $((none / 1000000)) ms with no sweep," \
        "$(((one - none) / 1000000)) ms for one sweep and its frame"
}

# timed SIDE CHAINS SWEEPS
timed() {
    monomers=$(($2 * 32))
    start=$work/$1
    "$BFM_CLI" build melt "x=$1" "y=$1" "z=$1" "chains=$2" length=32 > "$start.start"
    "$BFM_CLI" run seed=1 frames=1 every=200 < "$start.start" > "$start.plain" 2> "$work/report"
    { echo '!attributes'; echo "1-$monomers:1"; echo '!bfm_contacts'; echo '1 1:-1'; echo '!bfm_acceptance'; echo 3892314111; echo 3527421389; } > "$start.lines"
    LC_ALL=C awk -v lines="$start.lines" -f "$top/examples/insert.awk" < "$start.plain" > "$start.weighed"
    told "$monomers monomers in $1^3" "$monomers" "$3" "$start.plain"
    told "the same with contacts" "$monomers" "$3" "$start.weighed"
}

timed 64 512 200
timed 128 4096 25
timed 256 8192 12
