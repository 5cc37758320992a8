#!/bin/sh
# One member of a study: one seed, from a start over a warm-up to the sizes of its chains. It goes on from what an
# earlier call left in the folder, also where that call was killed in the midst of writing.
#     member.sh FOLDER SEED
set -eu
here=$(cd "$(dirname "$0")" && pwd)
example=cluster
# shellcheck source-path=SCRIPTDIR source=../common.sh
. "$here/../common.sh"

side=32     # of the box, in lattice units
chains=256
length=8    # monomers of a chain
every=500   # sweeps between two frames
part=10     # frames of one call of the program
warm=20000  # sweeps that do not count
last=60000  # sweeps in all

# lock: one call at a time works in a folder. The lock ends with its process, however that ends.
lock() {
    if command -v flock > /dev/null; then
        exec 9> "$folder/lock"
        flock -n 9 || fail "another call works in $folder"
    fi
}

# rescue: where a call was killed while it wrote a part, what it wrote up to its last whole frame is kept.
rescue() {
    written=$folder/trajectory.bfm.part
    if [ -e "$folder/trajectory.bfm" ] && [ -s "$written" ] && "$program" info < "$written" > "$folder/info.part" 2>&1; then
        kept=$(awk '$1 == "kept" { print $2 }' "$folder/info.part")
        if [ "$kept" -gt "$(wc -c < "$folder/trajectory.bfm")" ]; then
            head -c "$kept" "$written" > "$folder/rescued.part"
            mv "$folder/rescued.part" "$folder/trajectory.bfm"
            say "keeps what was written before a stop"
        fi
    fi
    rm -f "$written"
}

[ $# -eq 2 ] || fail "takes a folder and a seed"
seed=$2
case $seed in
'' | *[!0-9]*) fail "the seed is to be a whole number without a sign, and is '$seed'" ;;
esac
find_program
open_folder "$1" \
    "cluster side=$side chains=$chains length=$length seed=$seed every=$every warm=$warm last=$last"
lock
build_start melt "x=$side" "y=$side" "z=$side" "chains=$chains" "length=$length"
begin_from start.bfm trajectory.bfm
rescue
advance trajectory.bfm "$last" "seed $seed"
measure trajectory.bfm results.txt ../melt/melt.awk "length_of=$length" "side=$side" "warm=$warm"
finish results.txt
