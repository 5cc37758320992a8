#!/bin/sh
# Times melt for 2^14, 2^17 and 2^18 monomers: the time of a monomer is to stay about the same.
set -e
top=$(cd "$(dirname "$0")/../.." && pwd)
work=${1:-/tmp/melts}
. "$top/bench/repository.sh"
repository "$work" melts melt_builder "$top/bench/melts/melts.txt"
cd "$work/crates/melts"
rt run
