#!/bin/sh
# Tests the means: what is refused, the tables that frames are cut into, means and errors that were worked out by hand,
# and, with the program at hand, the sizes of a melt beside those of examples/melt. Until then the tables of
# examples/tables stand in for the program. Ends with status 1 where one fails.
set -eu
here=$(cd "$(dirname "$0")" && pwd)
LC_ALL=C
export LC_ALL
work=$(mktemp -d)
trap 'rm -rf "$work"' EXIT
tests=0
failures=0

# same WHAT FOUND WANTED
same() {
    tests=$((tests + 1))
    if [ "$2" != "$3" ]; then
        printf '%s: found [%s], wanted [%s]\n' "$1" "$2" "$3"
        failures=$((failures + 1))
    fi
}

# refuses WHAT TEXT COMMAND..: a command ends with status 1 and says this text on standard error
refuses() {
    what=$1
    text=$2
    shift 2
    found=0
    "$@" > "$work/said_out" 2> "$work/said" || found=$?
    same "$what, status" "$found" 1
    tests=$((tests + 1))
    if ! grep -q -e "$text" "$work/said"; then
        printf '%s: no line with [%s] in: %s\n' "$what" "$text" "$(cat "$work/said")"
        failures=$((failures + 1))
    fi
}

# Stands in for the program: its tables are those of another hand, and all of a file is kept. The path has a blank and a
# quote in it.
mkdir "$work/a b's"
standin="$work/a b's/standin"
cat > "$standin" << EOF
#!/bin/sh
case \$1 in
info) echo "kept \$(wc -c)" ;;
*) exec python3 '$here/../tables/tables.py' "\$1" ;;
esac
EOF
chmod +x "$standin"

# A chain of three and one of two over four frames. Radii: 24/9 and 4/4 where both are straight, 16/9 where the first has
# a turn; the ends of that one are 16 or 8 apart, squared, those of the other 4. Until the time 20 the first three go by
# (1, 0, 0), (1, 0, 0) and (-1, 2, 0) and the others by (0, 0, 2): 15/5 for monomers, 5/9 and 4 for the centres. Until the time
# 30 they go by (5, 2, 0), (5, 2, 0), (3, 4, 0) and (0, 0, 3): 101/5, 233/9 and 9.
printf '!number_of_monomers=5\n!box_x=16\n!box_y=16\n!box_z=16\n!periodic_x=1\n!periodic_y=1\n!periodic_z=1\n' > "$work/head"
printf '!set_of_bondvectors\n2 0 0:65\n-2 0 0:66\n0 2 0:200\n0 -2 0:32\n' >> "$work/head"
printf '!mcs=0\n0 0 0 AA\n0 8 0 A\n\n!mcs=10\n1 0 0 AA\n# a comment\n0 8 1 A\n' > "$work/early"
printf '\n!mcs=20\n1 0 0 A\310\n0 8 2 A\n\n!mcs=30\n5 2 0 A\310\n0 8 3 A\n' > "$work/late"
cat "$work/head" "$work/early" "$work/late" > "$work/run"
shown=$(env BFM_CLI="$standin" sh "$here/run.sh" blocks=2 "$work/run" | tr -s ' \n' ' ,')
same "one run" "$shown" " # mcs radius^2 end^2 monomers^2 centres^2, 0 1.8333 10.0000 0.0000 0.0000,\
 10 1.8333 10.0000 1.0000 1.0000, 20 1.3889 6.0000 3.0000 2.2778, 30 1.3889 6.0000 20.2000 17.4444,\
 # mean 1.6111 8.0000, # error 0.2222 2.0000,"
shown=$(env BFM_CLI="$standin" sh "$here/run.sh" from=15 size=2 blocks=2 "$work/run" | tr -s ' \n' ' ,')
same "later frames, one size" "$shown" " # mcs radius^2 end^2 monomers^2 centres^2, 20 1.0000 4.0000 0.0000 0.0000,\
 30 1.0000 4.0000 12.4000 1.0000, # mean 1.0000 4.0000, # error 0.0000 0.0000,"

# A second run, in which the chain of three is straight in all frames and stands still.
printf '\n!mcs=20\n1 0 0 AA\n0 8 2 A\n\n!mcs=30\n1 0 0 AA\n0 8 3 A\n' > "$work/straight"
cat "$work/head" "$work/early" "$work/straight" > "$work/other"
shown=$(env BFM_CLI="$standin" sh "$here/run.sh" from=20 "$work/run" "$work/other" | tr -s ' \n' ' ,')
same "two runs" "$shown" " # mcs radius^2 error end^2 error monomers^2 error centres^2 error,\
 20 1.6111 0.2222 8.0000 2.0000 0.0000 0.0000 0.0000 0.0000, 30 1.6111 0.2222 8.0000 2.0000 6.4000 6.0000 5.5000 5.0000,\
 # mean 1.6111 0.2222 8.0000 2.0000,"

# The bond of the first two is taken away behind the second frame, and one of the last two chains comes.
cat "$work/head" "$work/early" > "$work/changed"
printf '\n!remove_bonds\n1 2\n!add_bonds\n3 4\n!mcs=20\n1 0 0\n3 0 0\n5 0 0\n5 2 0 A\n' >> "$work/changed"
shown=$(awk -f "$here/frames.awk" "program=$standin" "part=$work/part" from=10 label=x "$work/changed" | tr '\n' ,)
same "bonds that change" "$shown" "x radii 10 molecule 1 3 24/9 16,x radii 10 molecule 4 2 4/4 4,x moves 10 monomers 0/5,\
x moves 10 molecule 1 3 0/9,x moves 10 molecule 4 2 0/4,x radii 20 molecule 1 1 0/1 0,x radii 20 molecule 2 4 48/16 20,\
x moves 20 monomers 124/5,x moves 20 molecule 1 1 0/1,x moves 20 molecule 2 4 248/16,"
refuses "bonds that change too early" "bonds change before" env BFM_CLI="$standin" sh "$here/run.sh" from=15 "$work/changed"

refuses "no trajectory" "one trajectory or more" sh "$here/run.sh" from=1
refuses "no program" "there is no program" env BFM_CLI="$work/none" sh "$here/run.sh" "$work/run"
refuses "no number" "no whole number" sh "$here/run.sh" from=late "$work/run"
refuses "too late" "no frame of the trajectory counts" env BFM_CLI="$standin" sh "$here/run.sh" from=31 "$work/run"
refuses "too many blocks" "two blocks or more" env BFM_CLI="$standin" sh "$here/run.sh" blocks=5 "$work/run"
refuses "one block" "two blocks or more" env BFM_CLI="$standin" sh "$here/run.sh" blocks=1 "$work/run"
refuses "no such size" "no molecule counts" env BFM_CLI="$standin" sh "$here/run.sh" blocks=2 size=4 "$work/run"
cat "$work/head" "$work/early" > "$work/short"
refuses "other times" "at other times" env BFM_CLI="$standin" sh "$here/run.sh" "$work/run" "$work/short"
cat > "$work/failing" << 'EOF'
#!/bin/sh
[ "$1" = info ] && echo "kept $(wc -c)"
EOF
chmod +x "$work/failing"
refuses "a program that fails" "bfm_cli radii failed at the time 0" env BFM_CLI="$work/failing" sh "$here/run.sh" "$work/run"

program=${BFM_CLI:-$here/../../crates/bfm_cli/out/bfm_cli}
if [ -x "$program" ]; then
    "$program" build melt x=16 y=16 z=16 chains=32 length=8 > "$work/start"
    "$program" run seed=1 frames=5 every=40 < "$work/start" > "$work/melt" 2> "$work/said"
    sh "$here/run.sh" blocks=2 "$work/melt" > "$work/found"
    awk -f "$here/../positions.awk" "$work/melt" > "$work/places"
    awk -f "$here/../melt/melt.awk" length_of=8 side=16 warm=0 "$work/places" > "$work/wanted"
    same "sizes of a melt" "$(awk '$1 != "#" { printf "%d %.2f %.2f,", $1, $2, $3 }' "$work/found")" \
        "$(awk '$1 != "#" { printf "%d %.2f %.2f,", $1, $4, $3 }' "$work/wanted")"
    same "displacements of a melt" "$(awk '$1 != "#" { printf "%d %.4f,", $1, $4 }' "$work/found")" \
        "$(awk '$1 == 0 { x[$2] = $3; y[$2] = $4; z[$2] = $5 }
            { sum[$1] += ($3 - x[$2]) ^ 2 + ($4 - y[$2]) ^ 2 + ($5 - z[$2]) ^ 2; if ($2 == 256) printf "%d %.4f,", $1, sum[$1] / 256 }' \
            "$work/places")"
    # A trajectory that was cut is measured up to its last whole frame.
    head -c $(($(wc -c < "$work/melt") - 10)) "$work/melt" > "$work/cut"
    same "a cut trajectory" "$(sh "$here/run.sh" blocks=2 "$work/cut" | grep -v '#')" "$(grep -v '#' "$work/found" | head -n 5)"
else
    echo "there is no program $program: what needs it was not tested"
fi

echo "$tests tests, $failures failed"
[ "$failures" -eq 0 ]
