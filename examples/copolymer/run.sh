#!/bin/sh
# A melt of chains whose two halves repel each other, beside the same melt without weights.
#     run.sh [FOLDER]     the folder is ./out where it is left out
set -eu
here=$(cd "$(dirname "$0")" && pwd)
example=copolymer
# shellcheck source-path=SCRIPTDIR source=../common.sh
. "$here/../common.sh"

side=16       # of the box, in lattice units
chains=16
length=16     # monomers of a chain, an even number
weight=1      # of a contact between unlike halves
strength=0.5  # the energy that a weight of 1 stands for, over kT
seed=1
every=200     # sweeps between two frames
part=5        # frames of one call of the program
warm=3000     # sweeps that do not count
last=6000     # sweeps in all

# the header lines that give each monomer its class: the first half of a chain is of class 1, the second of class 2
write_classes() {
    echo '!attributes'
    awk -v chains="$chains" -v half="$((length / 2))" 'BEGIN {
        for (chain = 0; chain < chains; chain++) {
            first = 2 * half * chain + 1
            printf "%d-%d:1\n%d-%d:2\n", first, first + half - 1, first + half, first + 2 * half - 1
        }
    }'
}

# the header lines that weigh contacts, and the acceptance numbers of the rule of Metropolis
write_weights() {
    echo '!bfm_contacts'
    echo "1 2:$weight"
    echo '!bfm_acceptance'
    awk -v strength="$strength" -f "$here/acceptance.awk"
}

[ $# -le 1 ] || fail "takes one folder at most"
if [ "$(awk -v strength=0.5 -f "$here/acceptance.awk" | head -n 4 | tr '\n' ' ')" != \
    "2605029347 1580030168 958336740 581260615 " ]; then
    fail "this awk does not compute acceptance numbers exactly: its first four for 0.5 are wrong"
fi
find_program
settings="copolymer side=$side chains=$chains length=$length weight=$weight strength=$strength"
open_folder "${1:-out}" "$settings seed=$seed every=$every warm=$warm last=$last"
build_start melt "x=$side" "y=$side" "z=$side" "chains=$chains" "length=$length"

write_classes > "$folder/plain_lines.txt"
{ write_classes; write_weights; } > "$folder/weighed_lines.txt"
for kind in plain weighed; do
    insert_lines "${kind}_lines.txt" "${kind}_start.bfm"
    begin_from "${kind}_start.bfm" "$kind.bfm"
    advance "$kind.bfm" "$warm" "$kind, warm-up"
    advance "$kind.bfm" "$last" "$kind, run"
    measure "$kind.bfm" "${kind}_results.txt" contacts.awk "length_of=$length" "side=$side" "warm=$warm"
done
finish plain_results.txt weighed_results.txt
