"""Molecules: the connected sets of monomers, in the order of their least members."""

from __future__ import annotations

from dataclasses import dataclass
from typing import Iterator, Tuple

import numpy as np

from .bonds import degrees_of


@dataclass(frozen=True, eq=False)
class Molecules:
    """Which monomers belong together.

    of       for each monomer the number of its molecule, counted from 0
    sizes    for each molecule how many monomers it has
    ends     for each molecule its two ends, the lesser number first; -1 where it is no linear chain
    """

    of: np.ndarray
    sizes: np.ndarray
    ends: np.ndarray

    def __len__(self) -> int:
        return len(self.sizes)

    def members(self, molecule: int) -> np.ndarray:
        """The monomers of one molecule, ascending."""
        return np.flatnonzero(self.of == molecule)

    def sums(self, values: np.ndarray) -> np.ndarray:
        """For each molecule the sum of the values of its monomers, column by column."""
        columns = [np.bincount(self.of, weights=column, minlength=len(self)) for column in values.T]
        return np.stack(columns, axis=1)


def molecules_of(bonds: np.ndarray, monomers: int) -> Molecules:
    """The molecules of so many monomers with these bonds (pairs, counted from 0)."""
    pairs = np.asarray(bonds, dtype=np.int64).reshape(-1, 2)
    roots = _roots(pairs, monomers)
    _, of = np.unique(roots, return_inverse=True)
    sizes = np.bincount(of)
    return Molecules(of, sizes, _ends(pairs, of, sizes))


def _roots(pairs: np.ndarray, monomers: int) -> np.ndarray:
    """For each monomer the least one that is connected to it: the lesser root takes over, until all agree."""
    roots = np.arange(monomers)
    first, second = pairs.T
    while True:
        one, other = roots[first], roots[second]
        apart = one != other
        if not apart.any():
            return roots
        least = np.minimum(one, other)[apart]
        np.minimum.at(roots, np.maximum(one, other)[apart], least)
        while True:
            further = roots[roots]
            if np.array_equal(further, roots):
                break
            roots = further


def _ends(pairs: np.ndarray, of: np.ndarray, sizes: np.ndarray) -> np.ndarray:
    """The ends of linear chains: trees with two monomers of one bond, and single monomers."""
    ends = np.full((len(sizes), 2), -1, dtype=np.int64)
    degrees = degrees_of(pairs, len(of))
    leaves = np.flatnonzero(degrees == 1)
    leaf_counts = np.bincount(of[leaves], minlength=len(sizes))
    bond_counts = np.bincount(of[pairs[:, 0]], minlength=len(sizes))
    linear = (leaf_counts == 2) & (bond_counts == sizes - 1)
    # stable, so the lesser end of a molecule comes first
    chosen = leaves[linear[of[leaves]]]
    ends[linear] = chosen[np.argsort(of[chosen], kind="stable")].reshape(-1, 2)
    single = np.flatnonzero(degrees == 0)
    ends[of[single]] = single[:, None]
    return ends


def made_whole(positions: np.ndarray, bonds: np.ndarray, box: np.ndarray, periodic: np.ndarray) -> np.ndarray:
    """Places in which each bond is as short as it may be, where bonds run through a periodic boundary.

    Where all bonds are so already, the positions come back as they are. Else each molecule is laid out along
    its bonds from its least member. In a molecule that closes on itself around the box, as a network does,
    some bonds have to stay long.
    """
    pairs = np.asarray(bonds, dtype=np.int64).reshape(-1, 2)
    first, second = pairs.T
    sides = np.where(periodic, box, 0)
    whole = positions.copy()
    moves = whole_sides(positions[second] - positions[first], sides)
    if not moves.any():
        return whole
    for one, other, move in _tree(pairs, moves, len(positions)):
        whole[other] += whole[one] - positions[one] - move
    return whole


def whole_sides(difference: np.ndarray, sides: np.ndarray) -> np.ndarray:
    """What has to be taken from a difference, so that it lies above -side/2 and at or below side/2."""
    safe = np.where(sides > 0, sides, 1)
    return -((safe - 2 * difference) // (2 * safe)) * sides


def _tree(
    pairs: np.ndarray, moves: np.ndarray, monomers: int
) -> Iterator[Tuple[np.ndarray, np.ndarray, np.ndarray]]:
    """The bonds outward from the least members, in layers: from which, to which, and the move of each."""
    one = np.concatenate((pairs[:, 0], pairs[:, 1]))
    other = np.concatenate((pairs[:, 1], pairs[:, 0]))
    both = np.concatenate((moves, -moves))
    order = np.argsort(one, kind="stable")
    other, both = other[order], both[order]
    begins = np.searchsorted(one[order], np.arange(monomers + 1))
    reached = np.zeros(monomers, dtype=bool)
    layer = np.unique(_roots(pairs, monomers))
    reached[layer] = True
    while layer.size:
        counts = begins[layer + 1] - begins[layer]
        source = np.repeat(layer, counts)
        at = np.arange(counts.sum()) + np.repeat(begins[layer] - (np.cumsum(counts) - counts), counts)
        target, index = np.unique(other[at], return_index=True)
        new = ~reached[target]
        layer, index = target[new], index[new]
        reached[layer] = True
        yield source[index], layer, both[at[index]]
