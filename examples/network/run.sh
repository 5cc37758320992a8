#!/bin/sh
# A network of nodes and strands, from its stretched start over a warm-up to how its nodes stand.
#     run.sh [FOLDER]     the folder is ./out where it is left out
set -eu
here=$(cd "$(dirname "$0")" && pwd)
example=network
# shellcheck source-path=SCRIPTDIR source=../common.sh
. "$here/../common.sh"

nodes=3    # along each axis
strand=4   # monomers between two nodes
seed=1
every=100  # sweeps between two frames
part=5     # frames of one call of the program
warm=2000  # sweeps that do not count
last=4000  # sweeps in all

[ $# -le 1 ] || fail "takes one folder at most"
find_program
open_folder "${1:-out}" "network nodes=$nodes strand=$strand seed=$seed every=$every warm=$warm last=$last"
build_start network "nodes=$nodes" "strand=$strand"
begin_from start.bfm trajectory.bfm
advance trajectory.bfm "$warm" "warm-up"
advance trajectory.bfm "$last" "run"
measure trajectory.bfm results.txt nodes.awk "nodes=$nodes" "strand=$strand" "warm=$warm"
finish results.txt
