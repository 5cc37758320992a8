#!/bin/sh
# A melt of chains that bond to each other until one molecule holds nearly all of them.
#     run.sh [FOLDER]     the folder is ./out where it is left out
set -eu
here=$(cd "$(dirname "$0")" && pwd)
example=gel
# shellcheck source-path=SCRIPTDIR source=../common.sh
. "$here/../common.sh"

side=20          # of the box, in lattice units
chains=50
length=10        # monomers of a chain
sites="1 4 7 10" # the monomers of a chain that take one link each
seed=1
part=10          # frames of one call of the program
warm=5000        # sweeps of warm-up, without links
warm_every=500   # sweeps between two frames of the warm-up
first=60         # sweeps with links whose frames stand close
first_every=3    # sweeps between two of them
last=600         # sweeps with links in all
last_every=60    # sweeps between two frames of the later ones

# the header lines that give each site one bond more than its chain gives it
write_valences() {
    echo '!bfm_valence'
    awk -v chains="$chains" -v length_of="$length" -v sites="$sites" 'BEGIN {
        count = split(sites, site, " ")
        for (chain = 0; chain < chains; chain++) for (k = 1; k <= count; k++) {
            is_end = (site[k] == 1) + (site[k] == length_of)
            printf "%d:%d\n", chain * length_of + site[k], 3 - is_end
        }
    }'
}

[ $# -le 1 ] || fail "takes one folder at most"
find_program
settings="gel side=$side chains=$chains length=$length sites=$sites seed=$seed"
open_folder "${1:-out}" "$settings warm=$warm/$warm_every first=$first/$first_every last=$last/$last_every"
build_start melt "x=$side" "y=$side" "z=$side" "chains=$chains" "length=$length"

write_valences > "$folder/valence_lines.txt"
insert_lines valence_lines.txt valence_start.bfm
begin_from valence_start.bfm trajectory.bfm
every=$warm_every
advance trajectory.bfm "$warm" "warm-up" link=off
every=$first_every
advance trajectory.bfm "$((warm + first))" "first links" link=on
every=$last_every
advance trajectory.bfm "$((warm + last))" "later links" link=on
if [ ! -e "$folder/results.txt" ]; then
    say "measures trajectory.bfm"
    awk -f "$here/gel.awk" "chains=$chains" "length_of=$length" "sites=$(echo "$sites" | wc -w)" "warm=$warm" \
        "$folder/trajectory.bfm" > "$folder/results.part"
    mv "$folder/results.part" "$folder/results.txt"
fi
finish results.txt
