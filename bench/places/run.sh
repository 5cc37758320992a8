#!/bin/sh
# Times WorldBuilder::place and WorldBuilder::begin for worlds of 2^14, 2^16 and 2^18 monomers: the
# time of a monomer is to stay about the same.
set -e
top=$(cd "$(dirname "$0")/../.." && pwd)
work=${1:-/tmp/places}
. "$top/bench/repository.sh"
repository "$work" places bfm_world "$top/bench/places/places.txt"
cd "$work/crates/places"
rt run
