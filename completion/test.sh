#!/usr/bin/env bash
# Tests the completion: what it offers for command lines, and that it knows the keys of the program's text.
# Prints each difference, and ends with status 1 where there is one.
set -u
here=$(cd "$(dirname "${BASH_SOURCE[0]}")" && pwd)
# shellcheck source-path=SCRIPTDIR source=bfm_cli.bash
. "$here/bfm_cli.bash"

failures=0
tests=0

# same WHAT FOUND WANTED
same() {
    tests=$((tests + 1))
    if [ "$2" != "$3" ]; then
        printf '%s: found [%s], wanted [%s]\n' "$1" "$2" "$3"
        failures=$((failures + 1))
    fi
}

# offers LINE WORDS: what is offered at the end of a line, parted by `|`
offers() {
    COMP_LINE=$1
    COMP_POINT=${#1}
    _bfm_cli
    local found
    found=$(IFS='|'; echo "${COMPREPLY[*]}")
    same "'$1'" "$found" "$2"
}

COMP_WORDBREAKS=$' \t\n"\'><=;|&(:'
COMP_TYPE=9

offers 'bfm_cli ' 'run|check|info|radii|moves|contacts|clusters|trial|build'
offers 'bfm_cli b' 'build'
offers 'bfm_cli x' ''
offers 'bfm_cli melt ' ''
offers 'bfm_cli walk ' ''
offers './out/bfm_cli i' 'info'
offers 'bfm_cli build ' 'melt|brush|network'
offers 'bfm_cli build n' 'network'
offers 'bfm_cli build ring ' ''
offers 'bfm_cli run ' 'seed=|frames=|every=|link=|limit='
offers 'bfm_cli run s' 'seed='
offers 'bfm_cli run seed=1 every=10 ' 'frames=|link=|limit='
offers 'bfm_cli run seed=1 frames=2 every=10 limit=5 ' 'link='
offers 'bfm_cli run seed=1 frames=2 every=10 limit=5 link=on ' ''
offers 'bfm_cli check ' 'limit='
offers 'bfm_cli info l' 'limit='
offers 'bfm_cli r' 'run|radii'
offers 'bfm_cli t' 'trial'
offers 'bfm_cli trial ' 'number='
offers 'bfm_cli trial number=7 ' ''
offers 'bfm_cli c' 'check|contacts|clusters'
offers 'bfm_cli radii ' 'limit='
offers 'bfm_cli moves limit=5 ' ''
offers 'bfm_cli contacts s' ''
offers 'bfm_cli clusters limit=' '0..1073741824|(default 268435456)'
offers 'bfm_cli run l' 'link=|limit='
offers 'bfm_cli build melt ' 'x=|y=|z=|chains=|length=|px=|py=|pz='
offers 'bfm_cli build melt p' 'px=|py=|pz='
offers 'bfm_cli build melt x=16 y=16 ' 'z=|chains=|length=|px=|py=|pz='
offers 'bfm_cli build brush ' 'x=|y=|z=|spacing=|length=|px=|py='
offers 'bfm_cli build network ' 'nodes=|strand='
offers 'bfm_cli build network nodes=3 ' 'strand='

# ranges and defaults
offers 'bfm_cli run seed=' '0..18446744073709551615|(required)'
offers 'bfm_cli trial number=' '0..18446744073709551615|(required)'
offers 'bfm_cli run frames=' '0..1048576|(required)'
offers 'bfm_cli run every=' '1..1073741824|(required)'
offers 'bfm_cli run limit=' '0..1073741824|(default 268435456)'
offers 'bfm_cli run link=' 'on|off'
offers 'bfm_cli run link=of' 'off'
offers 'bfm_cli run link=yes' ''
offers 'bfm_cli build melt x=' '8..512|(required)'
offers 'bfm_cli build melt chains=' '1..262144|(required)'
offers 'bfm_cli build brush spacing=' '2..512|(required)'
offers 'bfm_cli build network nodes=' '1..128|(required)'
offers 'bfm_cli build network strand=' '0..255|(required)'
offers 'bfm_cli build melt px=' '0|1'
offers 'bfm_cli build melt px=1' '1'
offers 'bfm_cli build brush pz=' ''
offers 'bfm_cli run seed=4' ''

# a menu inserts what it shows, so it gets no hints
COMP_TYPE=37
offers 'bfm_cli run seed=' ''
offers 'bfm_cli build melt py=' '0|1'
COMP_TYPE=9

# where `=` parts no words
COMP_WORDBREAKS=$' \t\n'
offers 'bfm_cli build melt pz=' 'pz=0|pz=1'
offers 'bfm_cli run link=o' 'link=on|link=off'
offers 'bfm_cli run e' 'every='
COMP_WORDBREAKS=$' \t\n"\'><=;|&(:'

# the cursor within a line
COMP_LINE='bfm_cli run seed=1 frames=2'
COMP_POINT=13
_bfm_cli
same 'a cursor behind "run s"' "${COMPREPLY[*]}" 'seed='

# files behind redirections, which are no words of the program
folder=$(mktemp -d)
touch "$folder/start" "$folder/two words"
offers "bfm_cli run seed=1 < $folder/st" "$folder/start"
offers "bfm_cli run seed=1 > $folder/tw" "$folder/two words"
offers "bfm_cli run seed=1 2>$folder/st" "$folder/start"
offers "bfm_cli run seed=1 >|$folder/tw" "$folder/two words"
offers "bfm_cli run < $folder/start > $folder/new seed=1 " 'frames=|every=|link=|limit='
offers "bfm_cli run 2>$folder/report seed=1 " 'frames=|every=|link=|limit='
rm -r "$folder"

# the keys and the jobs of the program's text, where that stands beside this
text=$here/../crates/bfm_cli/src
if [ -r "$text/job.rt" ] && [ -r "$text/start.rt" ]; then
    wanted=$(sed -n 's/.*name: "\([a-z]*\)".*/\1/p' "$text/job.rt" "$text/start.rt" | sort -u)
    found=$(for job in run check info radii moves contacts clusters trial melt brush network; do _bfm_cli_keys "$job"; done |
        cut -d ' ' -f 1 | sort -u)
    same 'the keys of all jobs' "$(echo "$found" | tr '\n' ' ')" "$(echo "$wanted" | tr '\n' ' ')"
    wanted=$(sed -n 's/.*if name[a-z_.()]* == "\([a-z]*\)".*/\1/p' "$text/job.rt" | sort)
    COMP_LINE='bfm_cli '
    COMP_POINT=8
    _bfm_cli
    found=$(printf '%s\n' "${COMPREPLY[@]}" | sort)
    same 'the jobs' "$(echo "$found" | tr '\n' ' ')" "$(echo "$wanted" | tr '\n' ' ')"
fi

echo "$tests tests, $failures failed"
[ "$failures" -eq 0 ]
