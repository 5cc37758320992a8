#!/usr/bin/env python3
"""Writes files of worlds on which the tables of bfm_cli are compared with those of another hand.

    worlds.py melt X Y Z CHAINS LENGTH     chains on the way through the cells of a periodic box, as `build melt` lays them
    worlds.py rings                        512 rings of 4 to 8 monomers, in three directions
    worlds.py stars                        64 stars, each with 8 arms of 3 monomers
    worlds.py free X Y Z COUNT             monomers at random places, walls along z, random labels
    worlds.py twins                        two chains whose monomers take turns, and a pair whose bond is taken away

All but the melt have a second frame, in which monomers stand whole sides away from where they stood: so plain distances
change, while bonds and contacts stay. The free monomers and the twins move besides.
"""

import itertools
import random
import sys

KINDS = [(2, 0, 0), (2, 1, 0), (2, 1, 1), (2, 2, 1), (3, 0, 0), (3, 1, 0)]
# As far as a coordinate of the second frame goes at most, in sides.
FAR = 1 << 36

RINGS = [
    [(0, 0), (2, 0), (2, 2), (0, 2)],
    [(1, 0), (3, 0), (4, 2), (2, 3), (0, 2)],
    [(0, 0), (2, 0), (4, 0), (4, 2), (2, 2), (0, 2)],
    [(1, 0), (3, 0), (5, 1), (5, 3), (3, 4), (1, 4), (0, 2)],
    [(0, 0), (2, 0), (4, 0), (4, 2), (4, 4), (2, 4), (0, 4), (0, 2)],
]

ARMS = [(2, 0, 0), (-2, 0, 0), (0, 2, 0), (0, -2, 0), (0, 0, 2), (0, 0, -2), (2, 2, 1), (-2, -2, -1)]


def plus(place, other):
    return tuple(a + b for a, b in zip(place, other))


def usual_set():
    """The usual 108 vectors, kind by kind, each with a byte that a file may have."""
    free = [byte for byte in range(17, 256)]
    numbers = range(3, -4, -1)
    for kind in KINDS:
        for vector in itertools.product(numbers, repeat=3):
            if tuple(sorted(map(abs, vector), reverse=True)) == kind:
                yield vector, free.pop(0)


def header(monomers, sides, periodic, lists):
    values = [("number_of_monomers", monomers)]
    values += [(f"box_{axis}", side) for axis, side in zip("xyz", sides)]
    values += [(f"periodic_{axis}", int(around)) for axis, around in zip("xyz", periodic)]
    text = "".join(f"!{name}={value}\n" for name, value in values)
    text += "!set_of_bondvectors\n"
    text += "".join(f"{x} {y} {z}:{byte}\n" for (x, y, z), byte in usual_set())
    return text + lists + "\n"


def pairs_text(name, pairs):
    return f"!{name}\n" + "".join(f"{first + 1} {second + 1}\n" for first, second in pairs)


def frame(mcs, places):
    return f"!mcs={mcs}\n" + "".join(f"{x} {y} {z}\n" for x, y, z in places)


def far_away(random_words, places, sides, periodic, reach):
    """Each place some whole sides away along each periodic axis."""
    return [
        tuple(
            c + side * random_words.randint(-reach, reach) if around else c
            for c, side, around in zip(place, sides, periodic)
        )
        for place in places
    ]


def two_frames(sides, periodic, lists, places, reach):
    then = far_away(random.Random(1), places, sides, periodic, 2)
    now = far_away(random.Random(2), places, sides, periodic, reach)
    return header(len(places), sides, periodic, lists) + frame(0, then) + "\n" + frame(7, now)


def melt(x, y, z, chains, length):
    """Chains along the way, with lines as the program writes them."""
    across, rows = x // 2, y // 2
    byte_of = dict(usual_set())
    text = header(chains * length, (x, y, z), (True, True, True), "") + "!mcs=0\n"
    pieces = [text.encode("latin-1")]
    for chain in range(chains):
        before = None
        for monomer in range(chain * length, (chain + 1) * length):
            row, layer = monomer // across, monomer // across // rows
            along = monomer % across if row % 2 == 0 else across - 1 - monomer % across
            deep = row % rows if layer % 2 == 0 else rows - 1 - row % rows
            place = (2 * along, 2 * deep, 2 * layer)
            if before is None:
                line = ["{} {} {}".format(*place).encode("latin-1"), b" " if length > 1 else b""]
            else:
                line.append(bytes([byte_of[tuple(a - b for a, b in zip(place, before))]]))
            before = place
        pieces.append(b"".join(line) + b"\n")
    return b"".join(pieces)


def rings():
    places, pairs = [], []
    for number, cell in enumerate(itertools.product(range(0, 64, 8), repeat=3)):
        ring = RINGS[number % len(RINGS)]
        first = len(places)
        for a, b in ring:
            flat = [(a, b, number % 3), (b, number % 3, a), (number % 3, a, b)][number % 3]
            places.append(plus(cell, flat))
        members = range(first, len(places))
        pairs += [(i, i + 1) for i in members[:-1]] + [(members[0], members[-1])]
    return two_frames((64, 64, 64), (True, True, True), pairs_text("bonds", pairs), places, 3)


def stars():
    places, pairs = [], []
    for cell in itertools.product(range(0, 64, 16), repeat=3):
        middle = len(places)
        places.append(cell)
        for arm in ARMS:
            place, before = cell, middle
            for _ in range(3):
                place = plus(place, arm)
                pairs.append((before, len(places)))
                before = len(places)
                places.append(place)
    labels = "!attributes\n" + "".join(f"{25 * star + 1}:1\n" for star in range(64))
    lists = pairs_text("bonds", pairs) + labels
    return two_frames((64, 64, 64), (True, True, True), lists, places, FAR)


def free(x, y, z, count):
    words = random.Random(3)
    sides, periodic = (x, y, z), (True, True, False)
    frames = []
    for _ in range(2):
        taken, places = set(), []
        while len(places) < count:
            place = (words.randrange(x), words.randrange(y), words.randrange(z - 1))
            cube = [plus(place, corner) for corner in itertools.product((0, 1), repeat=3)]
            cube = {(a % x, b % y, c) for a, b, c in cube}
            if not cube & taken:
                taken |= cube
                places.append(place)
        frames.append(far_away(words, places, sides, periodic, 5))
    labels = "".join(f"{i + 1}:{words.randint(0, 17)}\n" for i in range(count))
    text = header(count, sides, periodic, "!attributes\n" + labels)
    return text + frame(0, frames[0]) + frame(9, frames[1])


def twins():
    """Chains of 4 with the odd and with the even monomers, and a pair through the boundary, whose bond is removed."""
    then = [(2 * (i // 2), 2 * (i % 2), 0) for i in range(8)] + [(0, 8, 8), (14, 8, 8)]
    steps = [(1, 0, 0), (0, 0, 1)] * 4 + [(3, 0, 0), (0, -2, 3)]
    now = [plus(plus(place, step), (0, 16 * i, 0)) for i, (place, step) in enumerate(zip(then, steps))]
    pairs = [(i, i + 2) for i in range(6)] + [(8, 9)]
    text = header(10, (16, 16, 16), (True, True, True), pairs_text("bonds", pairs)) + frame(0, then)
    return text + pairs_text("remove_bonds", [(9, 8)]) + frame(5, now) + "\n!mcs=6\n1 2 3\n"


def main():
    kinds = {"melt": (melt, 5), "rings": (rings, 0), "stars": (stars, 0), "free": (free, 4), "twins": (twins, 0)}
    kind, numbers = sys.argv[1], [int(number) for number in sys.argv[2:]]
    if kind not in kinds or len(numbers) != kinds[kind][1]:
        raise SystemExit("worlds.py: there is no such world")
    text = kinds[kind][0](*numbers)
    sys.stdout.buffer.write(text if isinstance(text, bytes) else text.encode("latin-1"))


main()
