#!/bin/sh
# A dense melt of short chains, from its start over a warm-up to the sizes of its chains.
#     run.sh [FOLDER]     the folder is ./out where it is left out
set -eu
here=$(cd "$(dirname "$0")" && pwd)
example=melt
# shellcheck source-path=SCRIPTDIR source=../common.sh
. "$here/../common.sh"

side=16    # of the box, in lattice units
chains=32
length=8   # monomers of a chain
seed=1
every=200  # sweeps between two frames
part=5     # frames of one call of the program
warm=6000  # sweeps that do not count
last=10000 # sweeps in all

[ $# -le 1 ] || fail "takes one folder at most"
find_program
open_folder "${1:-out}" \
    "melt side=$side chains=$chains length=$length seed=$seed every=$every warm=$warm last=$last"
build_start melt "x=$side" "y=$side" "z=$side" "chains=$chains" "length=$length"
begin_from start.bfm trajectory.bfm
advance trajectory.bfm "$warm" "warm-up"
advance trajectory.bfm "$last" "run"
measure trajectory.bfm results.txt melt.awk "length_of=$length" "side=$side" "warm=$warm"
finish results.txt
