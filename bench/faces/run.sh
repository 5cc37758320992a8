#!/bin/sh
# Times a probe of a face in the proved crate beside the same loop in plain Rust over the same bits.
# Both print the number of free faces, which must agree.
set -e
top=$(cd "$(dirname "$0")/../.." && pwd)
work=${1:-/tmp/faces}
. "$top/bench/repository.sh"
repository "$work" faces packed_lattice "$top/bench/faces/faces.txt"
mkdir -p "$work/crates/faces/proofs/fill" "$work/crates/faces/proofs/main"
cat > "$work/crates/faces/proofs/fill/Invariants.antt" <<'END'
use Rattle.std.proofs.Common.{◌≡◌}
use Rattle.faces.proofs.fill.Given as goal

-- the box stays
abbrev pub invariant-loop : goal.invariant-loop
invariant-loop l = l.lattice.shape ≡ l.fn.lattice.shape
END
cat > "$work/crates/faces/proofs/main/Invariants.antt" <<'END'
use Rattle.faces.proofs.main.Given as goal

-- the ledger of a counter that nobody reads
abbrev pub ghosts-count : goal.ghosts-count
ghosts-count a = record { name = a.blank.name; parts = a.blank.parts }
END
cd "$work/crates/faces"
rt run
rustc -O -C target-cpu=x86-64-v2 "$top/bench/faces/plain.rs" -o "$work/plain"
"$work/plain"
