#!/bin/sh
# A brush on a wall, from its upright start over a warm-up to its height and its profile.
#     run.sh [FOLDER]     the folder is ./out where it is left out
set -eu
here=$(cd "$(dirname "$0")" && pwd)
example=brush
# shellcheck source-path=SCRIPTDIR source=../common.sh
. "$here/../common.sh"

side=16    # of the wall, in lattice units
height=40  # of the box
spacing=4  # between two feet
length=16  # monomers of a chain
seed=1
every=200  # sweeps between two frames
part=5     # frames of one call of the program
warm=4000  # sweeps that do not count
last=8000  # sweeps in all

[ $# -le 1 ] || fail "takes one folder at most"
find_program
open_folder "${1:-out}" \
    "brush side=$side height=$height spacing=$spacing length=$length seed=$seed every=$every warm=$warm last=$last"
build_start brush "x=$side" "y=$side" "z=$height" "spacing=$spacing" "length=$length"
begin_from start.bfm trajectory.bfm
advance trajectory.bfm "$warm" "warm-up"
advance trajectory.bfm "$last" "run"
measure trajectory.bfm results.txt heights.awk "length_of=$length" "warm=$warm"
measure trajectory.bfm profile.txt profile.awk "height=$height" "warm=$warm"
finish results.txt profile.txt
