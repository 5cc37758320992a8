#!/usr/bin/env python3
"""Writes a file of one monomer with so many bond vectors, at most 200.

They are the usual 108 kind by kind, and then the others in descending order, each with its negative.
"""

import itertools
import sys

USUAL = [(2, 0, 0), (2, 1, 0), (2, 1, 1), (2, 2, 1), (3, 0, 0), (3, 1, 0)]


def kind(v):
    return tuple(sorted(map(abs, v), reverse=True))


def vectors(count):
    numbers = range(3, -4, -1)
    near = [v for v in itertools.product(numbers, repeat=3) if max(map(abs, v)) in (2, 3)]
    usual = [v for k in USUAL for v in near if kind(v) == k]
    others = [v for v in near if kind(v) not in USUAL]
    half = others[: len(others) // 2]
    pairs = [w for v in half for w in (v, tuple(-x for x in v))]
    return (usual + pairs)[:count]


def main():
    identifiers = range(14, 256)
    entries = [f"{x} {y} {z}:{n}\n" for (x, y, z), n in zip(vectors(int(sys.argv[1])), identifiers)]
    sys.stdout.write(
        "!number_of_monomers=1\n!box_x=8\n!box_y=8\n!box_z=8\n"
        "!periodic_x=1\n!periodic_y=1\n!periodic_z=1\n"
        f"!set_of_bondvectors\n{''.join(entries)}!mcs=0\n3 3 3\n"
    )


main()
