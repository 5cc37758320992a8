#!/bin/sh
# Compares the tables of bfm_cli with those of tables.py, a program of another hand, and with what arithmetic gives.
# Without the program at hand it tests tables.py alone. Prints each difference, and ends with status 1 where there is
# one.
set -eu
here=$(cd "$(dirname "$0")" && pwd)
LC_ALL=C
export LC_ALL
work=$(mktemp -d)
trap 'rm -rf "$work"' EXIT
tests=0
failures=0

# same WHAT FOUND WANTED
same() {
    tests=$((tests + 1))
    if [ "$2" != "$3" ]; then
        printf '%s: found [%s], wanted [%s]\n' "$1" "$2" "$3"
        failures=$((failures + 1))
    fi
}

# table FILE JOB [WAY]: a table of tables.py
table() {
    file=$1
    shift
    python3 "$here/tables.py" "$@" < "$file"
}

world() {
    python3 "$here/worlds.py" "$@"
}

# Two monomers with a bond along x, 2 apart, of which the second goes to 2 along y, and one alone, of class 4, in contact
# with the first through two boundaries, which goes away by (0, 0, 5).
printf '!number_of_monomers=3\n!box_x=8\n!box_y=9\n!box_z=8\n!periodic_x=1\n!periodic_y=1\n!periodic_z=1\n' > "$work/small"
printf '!set_of_bondvectors\n2 0 0:65\n-2 0 0:66\n0 2 0:67\n0 -2 0:68\n!attributes\n3:4\n' >> "$work/small"
printf '!mcs=0\n0 0 0 A\n7 8 6\n' > "$work/then"
printf '!mcs=1\n0 0 0 C\n7 8 11\n!mcs=2\n1 1 1\n' > "$work/now"
cat "$work/small" "$work/then" > "$work/first"
cat "$work/small" "$work/then" "$work/now" > "$work/both"
same "small, radii" "$(table "$work/both" radii | tr '\n' ,)" "molecule 1 2 4/4 4,molecule 3 1 0/1 0,"
same "small, moves" "$(table "$work/both" moves | tr '\n' ,)" "monomers 33/3,molecule 1 2 8/4,molecule 3 1 25/1,"
for way in pairs places; do
    same "small, contacts by $way" "$(table "$work/first" contacts $way | tr '\n' ,)" "0 0 1,0 4 1,total 2,"
    same "small, clusters by $way" "$(table "$work/first" clusters $way | tr '\n' ,)" "3 1,"
    same "later, contacts by $way" "$(table "$work/both" contacts $way | tr '\n' ,)" "0 0 1,total 1,"
    same "later, clusters by $way" "$(table "$work/both" clusters $way | tr '\n' ,)" "1 1,2 1,"
done

# Worlds of each form. Both ways find the same contacts.
world rings > "$work/rings"
world stars > "$work/stars"
world twins > "$work/twins"
world free 24 24 24 600 > "$work/free"
world free 8 8 9 20 > "$work/narrow"
for name in free narrow twins; do
    for job in contacts clusters; do
        same "$name, $job by two ways" "$(table "$work/$name" $job pairs)" "$(table "$work/$name" $job places)"
    done
done

# compare NAME: the four tables of a file
compare() {
    for job in radii moves contacts clusters; do
        status=0
        "$program" $job < "$work/$1" > "$work/told" 2> "$work/said" || status=$?
        table "$work/$1" $job > "$work/wanted"
        same "$1, $job, status and report" "$status $(cat "$work/said")" "0 "
        same "$1, $job" "$(cksum < "$work/told")" "$(cksum < "$work/wanted")"
    done
}

# rods CHAINS LENGTH: the table of radii of straight chains whose monomers are 2 apart. A rod of n has the squared radius
# (n^2 - 1) / 3.
rods() {
    awk -v chains="$1" -v n="$2" 'BEGIN { for (k = 0; k < chains; k++)
        printf "molecule %d %d %d/%d %d\n", k * n + 1, n, n * n * (n * n - 1) / 3, n * n, (2 * n - 2) ^ 2 }'
}

program=${BFM_CLI:-$here/../../crates/bfm_cli/out/bfm_cli}
if [ -x "$program" ]; then
    for name in both first rings stars twins free narrow; do
        compare $name
    done

    # A melt: its file is that of another hand, each of its chains fills a row of cells, and then it moves.
    "$program" build melt x=64 y=64 z=64 chains=512 length=32 > "$work/melt"
    same "the file of a melt" "$(cksum < "$work/melt")" "$(world melt 64 64 64 512 32 | cksum)"
    same "straight chains" "$("$program" radii < "$work/melt" | cksum)" "$(rods 512 32 | cksum)"
    compare melt
    "$program" run seed=1 frames=2 every=2 < "$work/melt" > "$work/moved" 2> "$work/said"
    compare moved

    # Links: molecules are those of the last frame.
    "$program" build melt x=10 y=10 z=10 chains=6 length=8 > "$work/start"
    printf '!bfm_valence\n1-48:3\n!attributes\n1-24:1\n25-40:2\n' > "$work/lines"
    awk -v lines="$work/lines" -f "$here/../insert.awk" "$work/start" > "$work/open"
    "$program" run seed=1 frames=3 every=4 link=on < "$work/open" > "$work/linked" 2> "$work/said"
    compare linked

    # A full box of 2^18 monomers: each is in contact with 6 others, and all are one cluster.
    for chains in 1 4096; do
        length=$((262144 / chains))
        "$program" build melt x=128 y=128 z=128 "chains=$chains" "length=$length" > "$work/full"
        same "$chains chains, contacts" "$("$program" contacts < "$work/full" | tr '\n' ,)" "0 0 786432,total 786432,"
        same "$chains chains, clusters" "$("$program" clusters < "$work/full")" "262144 1"
        "$program" moves < "$work/full" > "$work/told"
        same "$chains chains, moves" "$(head -n 2 "$work/told" | tr '\n' ,)" \
            "monomers 0/262144,molecule 1 $length 0/$((length * length)),"
    done
    same "rods of 64" "$("$program" radii < "$work/full" | cksum)" "$(rods 4096 64 | cksum)"
    # One chain through all cells: 64^3 places with a variance of 4 (64^2 - 1) / 12 along each axis. It ends above its start.
    "$program" build melt x=128 y=128 z=128 chains=1 length=262144 > "$work/full"
    same "one chain" "$("$program" radii < "$work/full")" "molecule 1 262144 281406257233920/68719476736 15876"
else
    echo "there is no program $program: what needs it was not tested"
fi

echo "$tests tests, $failures failed"
[ "$failures" -eq 0 ]
