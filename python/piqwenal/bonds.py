"""Sets of bonds as sorted arrays of codes: the bond of i and j, i < j, has the code i * monomers + j."""

from __future__ import annotations

import numpy as np


def codes_of(pairs: np.ndarray, monomers: int) -> np.ndarray:
    """The codes of pairs of monomers, each once and ascending."""
    pairs = np.asarray(pairs, dtype=np.int64).reshape(-1, 2)
    return np.unique(pairs.min(axis=1) * monomers + pairs.max(axis=1))


def pairs_of(codes: np.ndarray, monomers: int) -> np.ndarray:
    """The pairs i < j of codes, as an array with two columns."""
    return np.stack(np.divmod(codes, monomers), axis=1)


def successive_of(codes: np.ndarray, monomers: int) -> np.ndarray:
    """For each monomer whether it is bonded to the one before it."""
    first, second = np.divmod(codes, monomers)
    bonded = np.zeros(monomers, dtype=bool)
    bonded[second[second == first + 1]] = True
    return bonded


def degrees_of(pairs: np.ndarray, monomers: int) -> np.ndarray:
    """For each monomer how many bonds it has."""
    return np.bincount(pairs.ravel(), minlength=monomers)
