#!/bin/sh
# Times the tables of 2^18 monomers in a box of 2^22 sites, which they fill to a half: of 8192 chains of 32 monomers, and of
# one chain, whose tables of molecules are one line. Prints the best of 10 runs, in nanoseconds for each monomer. Reading is
# not in it. The finding of molecules is told alone, and is in `radii` and `moves`: of one chain, what these take beyond it is
# the radius, or the displacements, and of many chains the writing of their lines as well.
# Wanted are at most 30 for molecules, 10 for the radius, and 800 for contacts and for clusters.
set -e
top=$(cd "$(dirname "$0")/../.." && pwd)
work=${1:-/tmp/tables}
. "$top/bench/repository.sh"
repository "$work" tables bfm_session "$top/bench/tables/tables.txt"
python3 "$top/examples/tables/worlds.py" melt 256 128 128 8192 32 > "$work/chains"
python3 "$top/examples/tables/worlds.py" melt 256 128 128 1 262144 > "$work/chain"
cd "$work/crates/tables"
echo "8192 chains of 32 monomers"
rt run < "$work/chains"
echo "one chain of 262144 monomers"
./out/tables < "$work/chain"
