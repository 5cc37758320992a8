#!/bin/sh
# The sizes of the molecules of trajectories and how far they went, frame by frame, with means and their errors.
#     run.sh [from=TIME] [blocks=NUMBER] [size=NUMBER] TRAJECTORY..
# From: frames of earlier times do not count; 0 where it is left out. Blocks: into how many the frames of one run are cut;
# 5 where it is left out. Size: only molecules of so many monomers count. Several trajectories are runs of the same
# system with other seeds, with frames at the same times.
set -eu
here=$(cd "$(dirname "$0")" && pwd)
example=averages
# shellcheck source-path=SCRIPTDIR source=../common.sh
. "$here/../common.sh"

from=0
blocks=5
size=
while [ $# -gt 0 ]; do
    case $1 in
    from=*) from=${1#from=} ;;
    blocks=*) blocks=${1#blocks=} ;;
    size=*) size=${1#size=} ;;
    *) break ;;
    esac
    shift
done
for number in "$from" "$blocks" "${size:-1}"; do
    case $number in
    '' | *[!0-9]*) fail "'$number' is no whole number" ;;
    esac
done
[ $# -gt 0 ] || fail "takes one trajectory or more"
find_program
folder=$(mktemp -d)
trap 'rm -rf "$folder"' EXIT

run=0
for trajectory in "$@"; do
    run=$((run + 1))
    job "$trajectory" info > "$folder/info"
    kept=$(awk '$1 == "kept" { print $2 }' "$folder/info")
    head -c "$kept" "$trajectory" > "$folder/kept"
    awk -f "$here/frames.awk" "program=$program" "part=$folder/table" "from=$from" "label=$run" "$folder/kept" \
        >> "$folder/tables" || fail "$trajectory could not be measured"
done
awk -f "$here/mean.awk" "blocks=$blocks" "size=$size" "$folder/tables"
