#!/usr/bin/env python3
"""Prints the tables of bfm_cli by their plain definitions, for a file on standard input.

    tables.py JOB [WAY] < FILE

The job is radii, moves, contacts or clusters. The way to find contacts is `pairs`, which compares each two monomers, or
`places`, which looks at the places at most two units away; it is `pairs` up to 1500 monomers where it is left out. A file
is taken as valid: what breaks a rule is not told. It shares nothing with the program, and needs Python 3 alone.
"""

import itertools
import re
import sys

FRAME_LINE = re.compile(rb"[ \t]*(-?\d+)[ \t]+(-?\d+)[ \t]+(-?\d+)(?: (.*))?", re.DOTALL)
FEW = 1500


class World:
    """The last whole frame of a file, and the places of the first one. Monomers are counted from 0."""

    def __init__(self, data):
        self.monomers = 0
        self.sides = [0, 0, 0]
        self.periodic = [True, True, True]
        self.vectors = {}
        self.labels = {}
        self.frames = 0
        self.first = []
        self.positions = []
        self.bonds = set()
        # the frame that is being read, and the bonds as they have changed by then
        self._places = []
        self._pairs = set()
        self._command = b""
        for line in data.split(b"\n")[:-1]:
            self._take(line[:-1] if line.endswith(b"\r") else line)

    def _take(self, line):
        mark = re.match(rb"#?!([A-Za-z0-9_]*)(.*)", line, re.DOTALL)
        if not line.strip(b" \t"):
            return
        if mark:
            self._command = mark.group(1)
            self._value(mark.group(2))
        elif not line.startswith(b"#"):
            self._entry(line)

    def _value(self, rest):
        name, axes = self._command, [b"x", b"y", b"z"]
        if name == b"number_of_monomers":
            self.monomers = int(rest.strip(b" \t="))
        elif name[:4] == b"box_":
            self.sides[axes.index(name[4:])] = int(rest.strip(b" \t="))
        elif name[:9] == b"periodic_":
            self.periodic[axes.index(name[9:])] = int(rest.strip(b" \t=")) == 1
        elif name == b"mcs":
            self._places = []

    def _entry(self, line):
        if self._command == b"mcs":
            self._frame_line(line)
        elif self._command == b"set_of_bondvectors":
            vector, byte = line.split(b":")
            self.vectors[int(byte)] = tuple(map(int, vector.split()))
        elif self._command in (b"bonds", b"add_bonds"):
            self._pairs.add(pair_in(line))
        elif self._command == b"remove_bonds":
            self._pairs.remove(pair_in(line))
        elif self._command == b"attributes":
            monomers, label = line.split(b":")
            ends = [int(end) for end in monomers.split(b"-")]
            for monomer in range(ends[0] - 1, ends[-1]):
                self.labels[monomer] = int(label)

    def _frame_line(self, line):
        found = FRAME_LINE.fullmatch(line)
        place = tuple(int(found.group(axis)) for axis in (1, 2, 3))
        self._places.append(place)
        for byte in found.group(4) or b"":
            place = tuple(a + b for a, b in zip(place, self.vectors[byte]))
            if self.frames == 0:
                self._pairs.add((len(self._places) - 1, len(self._places)))
            self._places.append(place)
        if len(self._places) == self.monomers:
            self.frames += 1
            self.first = self.first or self._places
            self.positions = self._places
            self.bonds = set(self._pairs)

    def class_of(self, monomer):
        """Its label from 1 to 15, or 0."""
        label = self.labels.get(monomer, 0)
        return label if 1 <= label <= 15 else 0


def pair_in(line):
    first, second = sorted(int(number) - 1 for number in line.split())
    return first, second


def joined(monomers, pairs):
    """The sets that pairs join, each ascending, in order of their least members."""
    neighbours = [[] for _ in range(monomers)]
    for first, second in pairs:
        neighbours[first].append(second)
        neighbours[second].append(first)
    sets, seen = [], [False] * monomers
    for least in range(monomers):
        if not seen[least]:
            seen[least] = True
            members = [least]
            for member in members:  # it grows as it is gone through
                for other in neighbours[member]:
                    if not seen[other]:
                        seen[other] = True
                        members.append(other)
            sets.append(sorted(members))
    return sets


def square(vector):
    return sum(c * c for c in vector)


def minus(place, other):
    return tuple(a - b for a, b in zip(place, other))


def total(vectors):
    return tuple(map(sum, zip(*vectors)))


def wrapped(world, place, other):
    """The difference of two places: along a periodic axis the one above minus half a side and at most half a side."""
    difference = list(minus(place, other))
    for axis, side in enumerate(world.sides):
        if world.periodic[axis]:
            difference[axis] %= side
            if 2 * difference[axis] > side:
                difference[axis] -= side
    return tuple(difference)


def touching_pairs(world):
    for first, second in itertools.combinations(range(world.monomers), 2):
        if 4 <= square(wrapped(world, world.positions[first], world.positions[second])) <= 6:
            yield first, second


def touching_places(world):
    def along(axis, c):
        side = world.sides[axis]
        return [(c + d) % side if world.periodic[axis] else c + d for d in range(-2, 3)]

    near = [v for v in itertools.product(range(-2, 3), repeat=3) if 4 <= square(v) <= 6]
    looks = [tuple(d + 2 for d in v) for v in near]
    around = [[along(axis, c) for axis, c in enumerate(place)] for place in world.positions]
    standing = {(x[2], y[2], z[2]): monomer for monomer, (x, y, z) in enumerate(around)}
    for first, (x, y, z) in enumerate(around):
        for a, b, c in looks:
            second = standing.get((x[a], y[b], z[c]), -1)
            if second > first:
                yield first, second


def radii(world):
    for members in joined(world.monomers, world.bonds):
        places = [world.positions[monomer] for monomer in members]
        count = len(members)
        top = count * sum(map(square, places)) - square(total(places))
        yield f"molecule {members[0] + 1} {count} {top}/{count * count} {square(minus(places[-1], places[0]))}"


def moves(world):
    went = [minus(now, then) for now, then in zip(world.positions, world.first)]
    yield f"monomers {sum(map(square, went))}/{world.monomers}"
    for members in joined(world.monomers, world.bonds):
        top = square(total([went[monomer] for monomer in members]))
        yield f"molecule {members[0] + 1} {len(members)} {top}/{len(members) ** 2}"


def contacts(world, touching):
    counts = {}
    for first, second in touching(world):
        pair = tuple(sorted((world.class_of(first), world.class_of(second))))
        counts[pair] = counts.get(pair, 0) + 1
    for (lesser, greater), count in sorted(counts.items()):
        yield f"{lesser} {greater} {count}"
    yield f"total {sum(counts.values())}"


def clusters(world, touching):
    sizes = {}
    for members in joined(world.monomers, touching(world)):
        sizes[len(members)] = sizes.get(len(members), 0) + 1
    for size, count in sorted(sizes.items()):
        yield f"{size} {count}"


def lines_of(job, world, way):
    touching = {"pairs": touching_pairs, "places": touching_places}[way]
    if job == "radii":
        return radii(world)
    if job == "moves":
        return moves(world)
    if job == "contacts":
        return contacts(world, touching)
    if job == "clusters":
        return clusters(world, touching)
    raise SystemExit(f"tables.py: there is no table {job}")


def main():
    if not 2 <= len(sys.argv) <= 3:
        raise SystemExit("tables.py: takes a job, and maybe a way to find contacts")
    world = World(sys.stdin.buffer.read())
    if not world.frames:
        raise SystemExit("tables.py: the file has no whole frame")
    way = sys.argv[2] if len(sys.argv) == 3 else "pairs" if world.monomers <= FEW else "places"
    sys.stdout.writelines(f"{line}\n" for line in lines_of(sys.argv[1], world, way))


main()
