#!/bin/sh
# Tests what the examples stand on: the reading of frames, the acceptance numbers, the lines that are put into a
# header, and which folders are refused. With the program at hand it also stops an example on its way, cuts its
# output short, and asks for the same bytes in the end. Prints each difference, and ends with status 1 where there
# is one.
set -eu
here=$(cd "$(dirname "$0")" && pwd)
LC_ALL=C
export LC_ALL
work=$(mktemp -d)
trap 'rm -rf "$work"' EXIT
tests=0
failures=0

# same WHAT FOUND WANTED
same() {
    tests=$((tests + 1))
    if [ "$2" != "$3" ]; then
        printf '%s: found [%s], wanted [%s]\n' "$1" "$2" "$3"
        failures=$((failures + 1))
    fi
}

# ends_with WHAT STATUS TEXT COMMAND..: a command ends with this status and says this text on standard error
ends_with() {
    what=$1
    wanted=$2
    text=$3
    shift 3
    found=0
    "$@" > "$work/said_out" 2> "$work/said" || found=$?
    same "$what, status" "$found" "$wanted"
    tests=$((tests + 1))
    if ! grep -q -e "$text" "$work/said"; then
        printf '%s: no line with [%s] in: %s\n' "$what" "$text" "$(cat "$work/said")"
        failures=$((failures + 1))
    fi
}

# A file whose identifiers are a blank, a mark, a hash and a byte beyond ASCII, and one whose last frame is cut.
printf '!number_of_monomers=6\n!set_of_bondvectors\n2 0 0:32\n-2 0 0:33\n0 3 -1:35\n0 -3 1:200\n' > "$work/small"
printf '# a comment\n!mcs=7\n-1 0 4  !#\310\n0 9 0\n\n!mcs=9\n1 1 1 #\n5 5 5\n6 8 8 !\n' >> "$work/small"
cp "$work/small" "$work/cut"
printf '0 0 0\n' >> "$work/small"
same "places of frames" "$(awk -f "$here/positions.awk" "$work/small" | tr '\n' ',')" \
    "7 1 -1 0 4,7 2 1 0 4,7 3 -1 0 4,7 4 -1 3 3,7 5 -1 0 4,7 6 0 9 0,\
9 1 1 1 1,9 2 1 4 0,9 3 5 5 5,9 4 6 8 8,9 5 4 8 8,9 6 0 0 0,"
ends_with "a cut frame" 1 "the last frame is cut short" awk -f "$here/positions.awk" "$work/cut"
ends_with "an empty file" 1 "there is no frame" awk -f "$here/positions.awk" /dev/null

# The acceptance numbers of docs/model.md.
numbers=$(awk -v strength=0.5 -f "$here/copolymer/acceptance.awk")
same "the first four" "$(echo "$numbers" | head -n 4 | tr '\n' ' ')" "2605029347 1580030168 958336740 581260615 "
same "how many" "$(echo "$numbers" | wc -l | tr -d ' ')" 44
same "the last" "$(echo "$numbers" | tail -n 1)" 1
ends_with "a small strength" 1 "more than 1024" awk -v strength=0.02 -f "$here/copolymer/acceptance.awk"

# Lines in a header: all other bytes stay, and a frame line that looks like a command does no harm.
printf '!bfm_contacts\n1 2:1\n' > "$work/lines"
{ head -n 7 "$work/small"; cat "$work/lines"; tail -n +8 "$work/small"; } > "$work/wanted"
awk -v lines="$work/lines" -f "$here/insert.awk" "$work/small" > "$work/found"
same "lines in a header" "$(cksum < "$work/found")" "$(cksum < "$work/wanted")"
ends_with "missing lines" 1 "there is no file" \
    awk -v lines="$work/none" -f "$here/insert.awk" "$work/small"

# Molecules of four chains of two monomers. Of 8 sites 2 have reacted in frame 6 and 6 in frame 8; with four sites a
# chain and p = 3/8 the theory's v is (sqrt(23/3) - 1) / 2 = 0.884437, and 1 - v^4 = 0.388111.
printf '!number_of_monomers=8\n!bonds\n1 2\n!mcs=5\n1 2 3 a\n\n!add_bonds\n1 5\n!mcs=6\n1 2 3\n' > "$work/linking"
printf '\n!mcs=7\n1 2 3\n\n!add_bonds\n3 7\n4 8\n!mcs=8\n3 4 5 aaa\n' >> "$work/linking"
same "molecules" "$(awk -f "$here/gel/gel.awk" chains=4 length_of=2 sites=2 warm=6 "$work/linking" | tr -s ' \n' ' ,')" \
    " # mcs links p molecules largest ideal others weighed, 6 1 0.250 3 0.500 0.000 2.0 2.0,\
 7 1 0.250 3 0.500 0.000 2.0 2.0, 8 3 0.750 2 0.500 0.000 4.0 4.0,"
same "the theory" "$(awk -f "$here/gel/gel.awk" chains=4 length_of=2 sites=4 warm=8 "$work/linking" | tail -n 1 | tr -s ' ')" \
    " 8 3 0.375 2 0.500 0.388 4.0 4.0"
ends_with "a warm-up without end" 1 "no frame from the end" \
    awk -f "$here/gel/gel.awk" chains=4 length_of=2 sites=2 warm=9 "$work/linking"
ends_with "other chains" 1 "not as many monomers" \
    awk -f "$here/gel/gel.awk" chains=3 length_of=2 sites=2 warm=6 "$work/linking"
printf '\n!remove_bonds\n3 7\n' >> "$work/linking"
ends_with "a bond that goes" 1 "taken away" \
    awk -f "$here/gel/gel.awk" chains=4 length_of=2 sites=2 warm=6 "$work/linking"

# Means over blocks: the 9 is left out; 1, 3 and 2, 2 and 5, 7 have the means 2, 2 and 6, so the mean is 10/3, the variance
# 16/3 and the error sqrt(16/9).
printf '   # mcs     bond^2\n0 50\n1 9\n2 1\n3 3\n4 2\n5 2\n6 5\n7 7\n  # mean 1\n' > "$work/table"
same "means over blocks" "$(awk -f "$here/blocks.awk" warm=0 blocks=3 "$work/table" | tail -n 2 | tr -s ' \n' ' ,')" \
    " # mean 3.333, # error 1.333,"
ends_with "blocks of another file" 1 "no table of results" awk -f "$here/blocks.awk" warm=0 "$work/small"
ends_with "blocks without lines" 1 "do not make 5 blocks" awk -f "$here/blocks.awk" warm=3 "$work/table"
ends_with "blocks without a warm-up" 1 "warm is to be told" awk -f "$here/blocks.awk" "$work/table"

# What each example refuses, without a call of the program.
mkdir "$work/foreign"
echo kept > "$work/foreign/trajectory.bfm"
for example in melt brush network copolymer gel; do
    run=$here/$example/run.sh
    ends_with "$example without a program" 1 "there is no program" env BFM_CLI="$work/none" sh "$run" "$work/new"
    ends_with "$example in a foreign folder" 1 "not from this example" env BFM_CLI=/bin/true sh "$run" "$work/foreign"
    ends_with "$example in a file" 1 "not from this example" env BFM_CLI=/bin/true sh "$run" "$work/small"
    ends_with "$example with two folders" 1 "one folder at most" sh "$run" "$work/new" "$work/newer"
    ends_with "$example with another program" 1 "is it bfm_cli" env BFM_CLI=/bin/true sh "$run" "$work/$example"
done
same "the foreign folder" "$(ls "$work/foreign") $(cat "$work/foreign/trajectory.bfm")" "trajectory.bfm kept"
ends_with "other settings" 1 "other settings" env BFM_CLI=/bin/true sh "$here/brush/run.sh" "$work/melt"
rm -r "$work/melt" "$work/brush" "$work/network" "$work/copolymer" "$work/gel"

# With the program: a run that was cut short in three ways comes to the bytes of the whole one.
program=${BFM_CLI:-$here/../crates/bfm_cli/out/bfm_cli}
if [ -x "$program" ]; then
    sh "$here/network/run.sh" "$work/whole" > "$work/results" 2> "$work/said"
    same "printed results" "$(cksum < "$work/results")" "$(cksum < "$work/whole/results.txt")"
    for bytes in 100 9000 $(($(wc -c < "$work/whole/trajectory.bfm") - 1)); do
        cp -r "$work/whole" "$work/part"
        rm "$work/part/results.txt"
        head -c "$bytes" "$work/whole/trajectory.bfm" > "$work/part/trajectory.bfm"
        told="cut short: goes on from its last whole frame"
        if [ "$bytes" -eq 100 ]; then
            ends_with "no whole frame" 1 "holds no whole frame" sh "$here/network/run.sh" "$work/part"
            rm "$work/part/trajectory.bfm"
            told="run: 4000 of 4000 sweeps"
        fi
        ends_with "cut at $bytes" 0 "$told" sh "$here/network/run.sh" "$work/part"
        for file in trajectory.bfm results.txt; do
            same "cut at $bytes, $file" "$(cksum < "$work/part/$file")" "$(cksum < "$work/whole/$file")"
        done
        rm -r "$work/part"
    done

    # Links: as many as bonds that came, and a run that was cut comes to the bytes of the whole one.
    "$program" build melt x=10 y=10 z=10 chains=6 length=8 > "$work/start"
    printf '!bfm_valence\n1-48:3\n' > "$work/lines"
    awk -v lines="$work/lines" -f "$here/insert.awk" "$work/start" > "$work/open"
    "$program" run seed=1 frames=6 every=10 link=on < "$work/open" > "$work/linked" 2> "$work/said"
    made=$(awk -f "$here/gel/gel.awk" chains=6 length_of=8 sites=10 warm=0 "$work/linked" | awk 'END { print $2 }')
    same "bonds with links" "$("$program" info < "$work/linked" | awk '$1 == "bonds" { print $2 }')" "$((6 * 7 + made))"
    same "links of the report" "$(awk '$1 == "links" { print $2 }' "$work/said")" "$made"
    joined=$(awk -f "$here/gel/gel.awk" chains=6 length_of=8 sites=10 warm=0 "$work/linked" | awk 'END { print $4, $5 }')
    same "a melt whose monomers all take links becomes one molecule" "$joined" "1 1.000"
    most=$(LC_ALL=C awk '/^!add_bonds/ { on = 1; next } /^!/ || /^$/ { on = 0 } on { bonds[$1]++; bonds[$2]++ }
        END { for (i = 1; i <= 48; i++) { n = bonds[i] + 2 - (i % 8 < 2); if (n > most) most = n } print most }' "$work/linked")
    same "the most bonds of a monomer" "$most" 3
    tests=$((tests + 1))
    if [ "$made" -eq 0 ]; then
        echo "links: none was made"
        failures=$((failures + 1))
    fi
    head -c $(($(wc -c < "$work/linked") - 100)) "$work/linked" > "$work/cut"
    frames=$("$program" info < "$work/cut" | awk '$1 == "mcs" { print $2 / 10 }')
    "$program" run seed=1 "frames=$((6 - frames))" every=10 link=on < "$work/cut" > "$work/again" 2> "$work/said"
    same "links that were cut" "$(cksum < "$work/again")" "$(cksum < "$work/linked")"

    before=$(cksum "$work/whole"/*)
    ends_with "a finished folder" 0 "results in" sh "$here/network/run.sh" "$work/whole"
    same "a finished folder" "$(cksum "$work/whole"/*)" "$before"
else
    echo "there is no program $program: what needs it was not tested"
fi

echo "$tests tests, $failures failed"
[ "$failures" -eq 0 ]
